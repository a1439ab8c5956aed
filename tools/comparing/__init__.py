"""What prints are compared by: two streams, a stream with its picture, an archive with what it printed before."""
