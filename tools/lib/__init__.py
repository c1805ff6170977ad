"""What the tools for a user's own data share: grids, shapes, sources, scripts with their replies, cells and outlines."""
