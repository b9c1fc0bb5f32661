"""Pictures of a trace: what a run did, read off its lines (`reading`), as a page for a browser (`page`) and as lanes in
the terminal (`lanes`)."""
