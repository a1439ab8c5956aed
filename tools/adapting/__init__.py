"""The debug adapter: the Debug Adapter Protocol over the trace of a stream."""
