"""Which shared pointers of a C++ program leak, and which member to make weak: what stands behind ./record."""
