"""The agents, and the service with them and stock clients, at real KDCs."""
