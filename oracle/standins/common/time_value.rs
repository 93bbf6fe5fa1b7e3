// Stand-in for common/time_value.rs, which is not there and of which nothing is used.
