"""Pictures of runs: what tools/picture is made of."""
