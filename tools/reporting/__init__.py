"""The parts of tools/report.py: what the check finds, the flow of each method, its picture, the run, and the page that holds them."""
