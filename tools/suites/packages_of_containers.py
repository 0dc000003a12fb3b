"""What packaging/container has: the image, made of the package and run as process 1 in its root, and the manifests, which are read alone."""
import gzip
import hashlib
import io
import json
import os
import shutil
import signal
import stat
import subprocess
import tarfile
import tomllib

from harness.faults import honest
from harness.program import in_top, read, read_text, run, write
from suites.clients_as_installed import VERSION
from suites.packages import BUILDS, files_below, packages_in, suite
from suites.packages_of_ends import as_first, by_a_calm_host, wrong_end_of_first
from suites.wiring_checks import eventually

try:
    import yaml
except ImportError:
    yaml = None

FOLDER = "packaging/container"
MANIFESTS = ("compose", "secrets", "masters", "machines")
RUN, STATE = "/run/truetime/machine", "/var/lib/truetime/machine"
ALONE = {"runAsUser": 0, "allowPrivilegeEscalation": False, "readOnlyRootFilesystem": True, "capabilities": {"drop": ["ALL"]},
         "seccompProfile": {"type": "RuntimeDefault"}}
OBJECTS = [*(("v1", "Secret", f"truetime-{name}") for name in ("machine", "master-0", "master-1", "master-2")),
           *(("apps/v1", "Deployment", f"truetime-master-{source}") for source in range(3)),
           ("v1", "ConfigMap", "truetime-machine"), ("apps/v1", "DaemonSet", "truetime-machine")]


def texts_of_manifests():
    return {name: read_text(f"{FOLDER}/{name}.yaml") for name in MANIFESTS}


def settings_in(texts):
    """The text of the settings of the machines of a cluster."""
    return next(found["data"]["node.toml"] for found in yaml.safe_load_all(texts["machines"]) if found["kind"] == "ConfigMap")


def differs(name, found, wanted):
    if found != wanted:
        yield f"{name}: {found!r}, and {wanted!r} is wanted"


def wrong_manifests(texts):
    """What is wrong with manifests of these texts."""
    objects = [found for name in MANIFESTS[1:] for found in yaml.safe_load_all(texts[name])]
    yield from differs("objects", [(found["apiVersion"], found["kind"], found["metadata"]["name"]) for found in objects], OBJECTS)
    yield from differs("namespaces", {found["metadata"]["namespace"] for found in objects}, {"truetime"})
    of = {(found["kind"], found["metadata"]["name"]): found for found in objects}
    keys = {name: [int(line.split()[0]) for line in found["stringData"]["keys"].splitlines()] for (kind, name), found in of.items() if kind == "Secret"}
    settings = tomllib.loads(settings_in(texts))
    yield from differs("keys", [*map(list, zip(master["key"] for master in settings["master"])), keys["truetime-machine"]],
                       [*(keys[f"truetime-master-{source}"] for source in range(3)), [master["key"] for master in settings["master"]]])
    for source in range(3):
        port = int(settings["master"][source]["address"].rpartition(":")[2])
        yield from wrong_master(of["Deployment", f"truetime-master-{source}"]["spec"], f"truetime-master-{source}", str(source), port)
    yield from wrong_machine(of["DaemonSet", "truetime-machine"]["spec"], settings)
    yield from wrong_compose(yaml.safe_load(texts["compose"]))


def wrong_pod(name, spec, args, mounts):
    """What is wrong with a pod of one container that has these arguments, and these mounts by what they are of."""
    labels, pod = spec["template"]["metadata"]["labels"], spec["template"]["spec"]
    yield from differs(f"{name}: labels", spec["selector"]["matchLabels"], labels)
    yield from differs(f"{name}: pod", (pod["hostNetwork"], pod["terminationGracePeriodSeconds"], pod["automountServiceAccountToken"]), (True, 5, False))
    [container] = pod["containers"]
    yield from differs(f"{name}: image, args", (container["image"], container["args"], "command" in container), ("truetime", args, False))
    yield from differs(f"{name}: security", container["securityContext"], ALONE)
    volumes = {volume.pop("name"): volume for volume in pod["volumes"]}
    found = [(mount["mountPath"], mount.get("readOnly", False), volumes.get(mount["name"])) for mount in container["volumeMounts"]]
    yield from differs(f"{name}: mounts", found, mounts)


def keys_of(name):
    """The mount of a file of keys, which its owner alone may read."""
    return "/etc/truetime/keys", True, {"secret": {"secretName": name, "defaultMode": 0o400}}


def wrong_master(spec, name, source, port):
    args = ["master", "--source", source, "--listen", f"$(HOST_IP):{port}", "--ntp", "127.0.0.1:123", "--http", "127.0.0.1:9561",
            "--keys", "/etc/truetime/keys/keys"]
    yield from wrong_pod(name, spec, args, [keys_of(name)])
    yield from differs(f"{name}: copies", (spec["replicas"], spec["strategy"]), (1, {"type": "Recreate"}))
    pod = spec["template"]["spec"]
    yield from differs(f"{name}: node", pod["nodeSelector"], {"truetime.example/master": source})
    yield from differs(f"{name}: address", pod["containers"][0]["env"], [{"name": "HOST_IP", "valueFrom": {"fieldRef": {"fieldPath": "status.hostIP"}}}])
    [container] = pod["containers"]
    yield from differs(f"{name}: ports", container["ports"],
                       [{"name": "polls", "containerPort": port, "hostPort": port, "protocol": "UDP"}, pages_at("127.0.0.1", 9561)])
    yield from wrong_probes(name, container, "127.0.0.1", 9561)


def pages_at(host, port):
    """The port of pages, at an address of the node."""
    return {"name": "pages", "containerPort": port, "hostPort": port, "hostIP": host, "protocol": "TCP"}


def wrong_probes(name, container, host, port):
    for probe, path in ("readinessProbe", "/health"), ("livenessProbe", "/metrics"):
        yield from differs(f"{name}: {probe}", container[probe]["httpGet"], {"host": host, "port": port, "path": path})


def wrong_machine(spec, settings):
    mounts = [("/etc/truetime/settings", True, {"configMap": {"name": "truetime-machine"}}), keys_of("truetime-machine"),
              (STATE, False, {"hostPath": {"path": STATE, "type": "DirectoryOrCreate"}}),
              (RUN, False, {"hostPath": {"path": RUN, "type": "DirectoryOrCreate"}})]
    yield from wrong_pod("machine", spec, ["serve", "/etc/truetime/settings/node.toml"], mounts)
    yield from differs("machine: update", spec["updateStrategy"], {"type": "RollingUpdate", "rollingUpdate": {"maxUnavailable": 1, "maxSurge": 0}})
    yield from differs("machine: paths", [settings[key] for key in ("state", "shared", "socket", "status", "evidence", "keys")],
                       [STATE, *(f"{RUN}/{name}" for name in ("time", "socket", "status.prom", "evidence")), "/etc/truetime/keys/keys"])
    host, _, port = settings["http"].partition(":")
    [container] = spec["template"]["spec"]["containers"]
    yield from wrong_probes("machine", container, host, int(port))
    yield from differs("machine: ports", container["ports"], [pages_at(host, int(port))])


def wrong_compose(found):
    """What is wrong with the services of one host, whose settings are those of the example."""
    settings, services = tomllib.loads(read_text("packaging/node.toml")), found["services"]
    yield from differs("compose: services", list(services), ["master-0", "master-1", "master-2", "machine"])
    for name, service in services.items():
        yield from differs(f"compose: {name}", [service[key] for key in ("image", "read_only", "cap_drop", "security_opt", "restart", "stop_grace_period")],
                           ["truetime", True, ["ALL"], ["no-new-privileges:true"], "on-failure", "5s"])
        yield from differs(f"compose: network of {name}", service.get("network_mode"), None if name == "master-0" else "service:master-0")
    for source, address in enumerate(settings["masters"]):
        yield from differs(f"compose: master {source}", services[f"master-{source}"]["command"],
                           ["master", "--source", str(source), "--listen", address, "--uncertainty", "1000000"])
    machine = services["machine"]
    yield from differs("compose: machine", machine["command"], ["serve", "/etc/truetime/node.toml"])
    yield from differs("compose: volumes", machine["volumes"], ["../node.toml:/etc/truetime/node.toml:ro", f"state:{settings['state']}",
                                                                *[f"{os.path.dirname(settings['shared'])}:{os.path.dirname(settings['socket'])}"]])
    yield from differs("compose: kept", list(found["volumes"]), ["state"])
    yield from differs("compose: health", machine["healthcheck"]["test"], ["CMD", "ttd", "ask", settings["listen"], "now", "--retry", "0"])
    yield from differs("compose: descriptors", machine["ulimits"], {"nofile": {"soft": 1024, "hard": 16384}})


# Manifests that are wrong: in which file, and what stands in place of what.
WRONG = {
    "a kind": ("machines", "kind: DaemonSet", "kind: Deployment"), "a name": ("secrets", "name: truetime-master-1,", "name: truetime-master-2,"),
    "a probe": ("machines", "path: /health", "path: /"), "the port of a probe": ("machines", "port: 9560, path: /metrics", "port: 9561, path: /metrics"),
    "a mount": ("machines", f"mountPath: {RUN}", "mountPath: /run/truetime"), "a folder of the host": ("machines", f"path: {STATE}, type", "path: /tmp, type"),
    "the mode of a secret": ("masters", "secretName: truetime-master-1, defaultMode: 0400", "secretName: truetime-master-1"),
    "the port of a master": ("machines", "10.1.0.2:5701", "10.1.0.2:5702"), "a key": ("secrets", "    1001 THE KEY OF MASTER 1\n---", "    1 THE KEY OF MASTER 1\n---"),
    "a surge": ("machines", "maxSurge: 0", "maxSurge: 1"), "a source": ("compose", '--source, "2"', '--source, "1"'),
    "a network": ("compose", 'network_mode: "service:master-0"\n    command: [serve', "command: [serve"),
}


@suite.case(missing=lambda: "" if yaml else "it wants PyYAML")
def manifests(trial):
    """Kinds, names, mounts, probes and ports of the manifests, which nothing applies; the program takes their settings and arguments, and
    refuses the keys that are none."""
    texts = texts_of_manifests()
    yield from wrong_manifests(texts)
    for name, (file, old, new) in WRONG.items():
        trial.equal(f"{name}: places", texts[file].count(old), 1)
        try:
            found = list(wrong_manifests({**texts, file: texts[file].replace(old, new)}))
        except (KeyError, TypeError, ValueError) as fault:
            found = [repr(fault)]
        trial.check(f"{name} that is wrong", found, "it is not seen")
    try_settings(trial, settings_in(texts))
    secrets = {found["metadata"]["name"]: found["stringData"]["keys"] for found in yaml.safe_load_all(texts["secrets"])}
    trial.equal("keys that are none", check_keys(trial, settings_in(texts), secrets["truetime-machine"]), ("refused 2215\n", 2))


def check_keys(trial, settings, keys):
    """What `--check` says of settings, in folders of the case, with a file of keys that is a link, as those of a volume are."""
    folder = os.path.join(trial.room, "check")
    shutil.rmtree(folder, ignore_errors=True)
    os.makedirs(f"{folder}/data")
    for name in ("state", "run"):
        os.mkdir(f"{folder}/{name}")
    write(f"{folder}/data/keys", keys.encode())
    os.chmod(f"{folder}/data/keys", 0o400)
    os.symlink("data/keys", f"{folder}/keys")
    text = settings.replace("/etc/truetime/keys/keys", f"{folder}/keys").replace(STATE, f"{folder}/state").replace(RUN, f"{folder}/run")
    write(f"{folder}/node.toml", text.encode())
    ran = trial.command("serve", "--check", f"{folder}/node.toml")
    return ran.answer if ran.status else (ran.error, 0)


def try_settings(trial, settings):
    keys = "".join(f"{number} {f'{number % 256:02x}' * 32}\n" for number in (1, 1001, 2001))
    trial.equal("settings of the cluster", check_keys(trial, settings, keys), ("", 0))


# The image.

#: What is in its root beside the libraries.
FILES = {"usr/bin/ttd", "usr/bin/dash", "usr/libexec/truetime/run", "usr/share/doc/truetime/copyright", "etc/passwd", "etc/group", "etc/nsswitch.conf"}
# Its root, in which nothing can be written but in the volumes, with process 1 in it.
MOUNTS = """
    mount --make-rprivate /
    mount --bind "$1" "$1"
    mount -o remount,bind,ro "$1"
    for volume in etc/truetime run/truetime var/lib/truetime; do mount --bind "$2/$volume" "$1/$volume"; done
    mount -t proc proc "$1/proc"
    mount -t tmpfs none "$1/dev"
    for name in null urandom; do : >"$1/dev/$name"; mount --bind "/dev/$name" "$1/dev/$name"; done
    root=$1
    shift 2
    exec chroot "$root" "$@"
"""


def made(trial):
    """The folder with the root of an image and its layout."""
    ran = run([in_top(f"{FOLDER}/build"), packages_in(f"{trial.shared}/now")["truetime"], f"{trial.room}/made"], seconds=60)
    trial.check("build", ran.status == 0 and ran.said.startswith(f"{trial.room}/made/image:{VERSION}-git"), f"status {ran.status}\n{ran.said}{ran.error}")
    return f"{trial.room}/made"


@suite.case(root=True, programs=(*BUILDS, "unshare"))
def image(trial):
    """The files of the image, its settings, and a machine of it: process 1 in a root that is read alone, ended by SIGTERM."""
    folder = made(trial)
    root = f"{folder}/root"
    found = set(files_below(root))
    trial.equal("files", {name for name in found if ".so" not in name} - {"usr/bin/sh"}, FILES)
    trial.equal("the script", read(f"{root}/usr/libexec/truetime/run"), read("packaging/run"))
    trial.equal("the version", run(["chroot", root, "/usr/bin/ttd", "--version"]).answer, trial.command("--version").answer)
    try_layout(trial, f"{folder}/image", root)
    yield from by_a_calm_host(lambda: wrong_container(trial, root))


def wrong_container(trial, root):
    """What is wrong with a machine in this root."""
    volumes = os.path.join(trial.room, "volumes")
    shutil.rmtree(volumes, ignore_errors=True)
    for name in ("etc/truetime", "run/truetime/a", "var/lib/truetime/a"):
        os.makedirs(f"{volumes}/{name}")
    masters = trial.scripts(*[honest] * 3)
    text = read_text("packaging/node.toml").replace("127.0.0.1:5601", "127.0.0.1:0")
    for source, master in enumerate(masters):
        text = text.replace(f"127.0.0.1:570{source + 1}", master.address)
    write(f"{volumes}/etc/truetime/node.toml", text.encode())
    with subprocess.Popen(["unshare", "--pid", "--mount", "--fork", "sh", "-ec", MOUNTS, "sh", root, volumes, "/usr/libexec/truetime/run", "/usr/bin/ttd",
                           "serve", "/etc/truetime/node.toml"], stdin=subprocess.DEVNULL, stderr=subprocess.PIPE, start_new_session=True) as outer:
        if not eventually(lambda: trial.command("ask", f"{volumes}/run/truetime/a/socket", "now", "--retry", "0").said.startswith("now "), 20):
            yield "it gives no time"
        elif not eventually(lambda: trial.command("read", f"{volumes}/run/truetime/a/time").said.startswith("now ")):
            yield "its shared file gives no time"
        if not eventually(lambda: as_first(outer.pid)):
            outer.kill()
            yield f"there is no process 1: {outer.stderr.read()[-500:]!r}"
            return
        yield from wrong_end_of_first(outer, signal.SIGTERM, {0})
        if (lines := outer.stderr.read().count(b"event=ended")) != 1:
            yield f"ended {lines} times, by its log"


def linked(path):
    """Where a link leads, or nothing, and the mode."""
    return os.readlink(path) if os.path.islink(path) else "", stat.S_IMODE(os.lstat(path).st_mode)


def try_layout(trial, layout, root):
    """The settings of the image, and that its layer is the root."""
    def blob(listed, kind):
        content = read(f"{layout}/blobs/{listed['digest'].replace(':', '/')}")
        trial.equal(f"the {kind}", (listed["mediaType"], listed["digest"], listed["size"]),
                    (f"application/vnd.oci.image.{kind}", f"sha256:{hashlib.sha256(content).hexdigest()}", len(content)))
        return content

    trial.equal("oci-layout", json.loads(read(f"{layout}/oci-layout")), {"imageLayoutVersion": "1.0.0"})
    [listed] = json.loads(read(f"{layout}/index.json"))["manifests"]
    manifest = json.loads(blob(listed, "manifest.v1+json"))
    whole = json.loads(blob(manifest["config"], "config.v1+json"))
    config = whole["config"]
    trial.equal("entry point", (config["Entrypoint"], config["Cmd"], config["StopSignal"], config.get("User", "")),
                (["/usr/libexec/truetime/run", "/usr/bin/ttd"], ["serve", "/etc/truetime/node.toml"], "SIGTERM", ""))
    [layer] = manifest["layers"]
    content = gzip.decompress(blob(layer, "layer.v1.tar+gzip"))
    trial.equal("diff_ids", whole["rootfs"], {"type": "layers", "diff_ids": [f"sha256:{hashlib.sha256(content).hexdigest()}"]})
    with tarfile.open(fileobj=io.BytesIO(content)) as tar:
        members = {member.name.strip("/").removeprefix("./"): member for member in tar.getmembers()}
        trial.equal("files of the layer", {name for name, member in members.items() if member.isfile()},
                    {name for name in files_below(root) if not os.path.islink(f"{root}/{name}")})
        trial.equal("links and modes of the layer", {name: (member.linkname, member.mode) for name, member in members.items()},
                    {os.path.relpath(path, root): linked(path) for at, *names in os.walk(root) for path in (f"{at}/{name}" for name in sum(names, []))})
        trial.equal("owners of the layer", {(member.uid, member.gid) for member in members.values()}, {(0, 0)})
