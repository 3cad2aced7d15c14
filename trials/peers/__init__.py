"""Peers that nobody here wrote: drivers of Cassandra, which compute placements themselves, and Cassandra's own walk."""
