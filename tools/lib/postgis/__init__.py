"""One topo beside a PostGIS database: what was committed is judged, and the errors stand in tables."""
