"""Runbooks: the steps by which people carry out movements on a cluster of Cassandra."""
