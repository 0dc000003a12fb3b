"""What standard error says of each refusal, behind `ttd: refused N: `."""
import re

REASON = r"(.* \(os error \d+\)|not a regular file|not a folder|reading or writing failed)"
CERTIFICATE, FUSION, MACHINE = "not a valid certificate: ", "no fusion: ", "the machine does not serve: "
KEYS = f"({MACHINE})?"
# The sentence of each number, as a pattern; a number has more than one where commands have it in other parts.
SENTENCES = {
    501: f"({FUSION}|{CERTIFICATE})there is no source", 502: f"({FUSION}|{CERTIFICATE})there are more sources than can be fused",
    503: f"({FUSION}|{CERTIFICATE})there are too few sources for the number that may be wrong", 504: f"{FUSION}no time is possible",
    601: f"{CERTIFICATE}the left set does not show that the lower end is possible",
    602: f"{CERTIFICATE}the right set does not show that the upper end is possible",
    603: f"{CERTIFICATE}the stretches do not cover the times outside the claim side by side", 606: f"{CERTIFICATE}the text is no certificate",
    1305: "not a valid script: there are more than 4096 events", 1304: r"not a valid script: event \d+: do: no event is called so",
    1401: "no twin: the event is not there, or its reply is no reading",
    1402: "no twin: the end of the reading lies past the greatest time before it is cut",
    1501: f"the link failed|no socket can be had (to ask )?at \\S+: {REASON}", 1602: "not hex", 1604: "reading failed", 1605: "writing failed",
    1603: r"invalid input|not a history: line \d+ is not a commit's line|the file is longer than 1048576 bytes, or is not UTF-8",
    1701: "no reading: the file cannot be opened or read",
    1702: "no reading: the file is not a shared file of this boot, or not of the clock of this process",
    1703: "no reading: no daemon wrote this slot", 1704: "no reading: each try met another publication",
    1708: "no reading: the clock is past the last reading at which the publication may be used",
    **dict.fromkeys((1801, 1802, 1803, 1804, 1806, 1810, 1817, 1818, 1825, 1826), "not a configuration"),
    1805: "not a configuration|outside this host a key is needed: --keys FILE, or --listen 127.0.0.1:PORT"
          "|neither an address of this host, as 127.0.0.1:7101, nor a path: a text with a slash, or without a colon",
    1807: f"{MACHINE}the address can't be listened at: {REASON}", 1809: f"{MACHINE}the Unix socket can't be listened at: {REASON}",
    1811: f"{MACHINE}no epoch: the epoch can't be read: {REASON}",
    1812: f"{MACHINE}no epoch: the (folder of the epoch can't be used|lock of the epoch can't be opened|epoch can't be written): {REASON}",
    1813: f"{MACHINE}no epoch: the file is not an epoch file", 1814: f"{MACHINE}no epoch: no epoch is left",
    1815: f"{MACHINE}no epoch: another process holds the folder",
    1819: f"{MACHINE}what is at the path of the Unix socket is not a socket",
    1827: rf"{MACHINE}the file of keys has no key with the number \d+", 1829: f"{KEYS}no random bytes",
    1830: f"({MACHINE})?the address for pages can't be listened at: {REASON}", 1831: "the stack is smaller than 2097152 bytes",
    2211: f"{KEYS}the file of keys can't be read: {REASON}", 2212: f"{KEYS}the mode of the file of keys is neither 0600 nor 0400",
    2213: f"{KEYS}the file of keys has another owner", 2214: f"{KEYS}the file of keys is too long", 2215: rf"{KEYS}line \d+ is not a key",
    2216: rf"{KEYS}the key in line \d+ has the number of an earlier one", 2411: "no line has the number of the key",
    2412: "the line of the key has not three words", 2413: "the type of the key is neither SHA1 nor SHA256",
    2414: "the number of the key is 0, or it has no bytes, or more than 64, or bad digits",
    2601: "nothing to show: the text is not the status of a machine", 2602: "nothing to show: the text is not the evidence of a publication",
}


def strange_sentences(error: str) -> list[str]:
    """The lines of standard error whose sentence is not that of their number."""
    told = re.findall(r"^(ttd: refused (\d+): (.*))$", error, re.MULTILINE)
    return [line for line, number, sentence in told
            if not re.fullmatch(f"(?:{SENTENCES.get(int(number), '.*')}) \\(ttd explain {number}\\)", sentence)]
