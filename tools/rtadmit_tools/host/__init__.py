"""From a host to a system file, from there to budgets, and from a recording to a verdict."""
