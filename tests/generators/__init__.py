"""Seeded generators of words and inputs. Each takes a `random.Random` and answers the same for the same one."""
