"""What the programs in tools/ share. Each of them stands beside the planner and decides nothing: what is proved is `run_tool`."""
