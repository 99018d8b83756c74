"""What ./record tells of C++ programs, and what it leaves as it is."""
