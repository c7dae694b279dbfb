"""The parts of tools/from-pddl: how PDDL files are read, what they mean, and how a script says it."""
