/** The time with an error bound, and timestamps for commits, from the time service of this machine. */
module io.truetime {
    exports io.truetime;
}
