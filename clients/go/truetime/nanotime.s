// Nothing: see clock_runtime.go.
