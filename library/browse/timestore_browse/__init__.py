"""Shows the past of a store in a web browser. It only reads, and listens on this machine alone."""
