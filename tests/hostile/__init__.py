"""The program among hostile clients and faults."""

# in the order in which the gate runs them
SCRIPTS = ("allocations", "outputs", "lines", "connections", "crowds", "datagrams", "addresses", "shares", "advisories", "agents",
           "agent_calls", "failing_lists", "logs", "starts", "resumes", "restarts", "options", "control", "reloads", "compactions",
           "endings", "endings_import", "endings_table", "endings_client", "endings_serve", "client", "commands", "keys", "tables",
           "faults", "threads")
