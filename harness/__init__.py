"""What speaks to the program and to its neighbours: messages, realms, servers, clients, and the form of the scripts."""
