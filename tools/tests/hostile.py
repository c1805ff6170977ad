"""Sources that mean harm: names, numbers and ids made of what would begin a line, end a cell or control a terminal."""
from __future__ import annotations

import json
import random
import sqlite3
from typing import Optional

PIECES = ['\n', '\r', '\r\n', '\u2028', '\x85', '\x0b', '\x1b[2J', '\x1b]0;x\x07', '"', '\\', '\\n', "'", ',', ';', '\t', ' ', '#', '=', '-al', '@x',
          '# fid 1 id "2"', 'droprule 1', 'by import delete 1', 'by import add lots POLYGON ((0 0, 9 0, 0 9, 0 0))', 'class evil point',
          '# grid origin 9 9', 'validate all', 'end', 'ä', '猫', '\U0001f600', '\ufffd', '\u202e', 'N1', '0', '%s', '{}', '<script>', '\x7f', '\x9b']
ENDLESS = '''create view endless as with recursive r(i) as (select 1 union all select i + 1 from r)
             select i as fid, geom from r, lots where i < 0'''


def values(count: int, seed: int = 1) -> list[str]:
    """So many texts that mean harm; none is empty."""
    lot = random.Random(seed)
    return [''.join(lot.choices(PIECES, k=lot.randint(1, 6))) for _ in range(count)]


def square(x: float, y: float, side: float = 10) -> dict:
    return {'type': 'Polygon', 'coordinates': [[[x, y], [x + side, y], [x + side, y + side], [x, y + side], [x, y]]]}


def write_lots(path: str, rows: list[dict[str, str]], name: Optional[str] = None) -> None:
    """Writes lots in a row as GeoJSON, each of which overlaps the next, with these properties."""
    features = [{'type': 'Feature', 'properties': row, 'geometry': square(9 * i, 0)} for i, row in enumerate(rows)]
    with open(path, 'w', encoding='utf-8') as out:
        json.dump({'type': 'FeatureCollection', **({'name': name} if name else {}), 'features': features}, out)


def add_endless_view(path: str) -> None:
    """Adds a layer to a GeoPackage with lots: a view whose first row never comes."""
    table = sqlite3.connect(path)
    table.execute(ENDLESS)
    table.execute("insert into gpkg_contents(table_name, data_type, identifier, srs_id) values ('endless', 'features', 'endless', 4326)")
    table.execute("insert into gpkg_geometry_columns values ('endless', 'geom', 'POLYGON', 4326, 0, 0)")
    table.commit()
    table.close()


def name_column(path: str, old: str, new: str) -> None:
    """Gives a column of the lots in a GeoPackage another name."""
    table = sqlite3.connect(path)
    table.execute('alter table lots rename column %s to "%s"' % (old, new))
    table.commit()
    table.close()


def write_infinite_extent(path: str) -> None:
    """Makes a GeoPackage with lots say that they reach without end."""
    table = sqlite3.connect(path)
    table.execute('update gpkg_contents set min_x = -1e999, max_x = 1e999')
    table.commit()
    table.close()


def add_virtual_tables(path: str, other: str) -> None:
    """Adds virtual tables to a GeoPackage with lots that read another file, a view over each that looks like a layer, and a trigger that deletes
    all lots where one is looked for."""
    made = {'by_ogr': "VirtualOGR('%s', 0)" % other, 'by_text': "VirtualText('%s', 'UTF-8', 1, POINT, DOUBLEQUOTE, ',')" % other}
    table = sqlite3.connect(path)
    table.execute('pragma writable_schema = 1')
    put = lambda kind, name, of, text: table.execute('insert into sqlite_master(type, name, tbl_name, rootpage, sql) values (?, ?, ?, 0, ?)', (kind, name, of, text))
    for name, module in made.items():
        view = 'view_' + name
        put('table', name, name, 'create virtual table %s using %s' % (name, module))
        put('view', view, view, 'create view %s as select fid, geom, (select count(*) from %s) as nr from lots' % (view, name))
        table.execute("insert into gpkg_contents(table_name, data_type, identifier, srs_id) values (?, 'features', ?, 4326)", (view, view))
        table.execute("insert into gpkg_geometry_columns values (?, 'geom', 'POLYGON', 4326, 0, 0)", (view,))
    put('trigger', 'gone', 'lots', 'create trigger gone after update on lots begin delete from lots; end')
    table.commit()
    table.close()


def add_plain_view(path: str) -> None:
    """Adds a layer to a GeoPackage with lots: a view of its lots under another name."""
    table = sqlite3.connect(path)
    table.execute('create view seen as select fid, geom, nr from lots')
    table.execute("insert into gpkg_contents(table_name, data_type, identifier, srs_id) values ('seen', 'features', 'seen', (select srs_id from gpkg_contents where table_name = 'lots'))")
    table.execute("insert into gpkg_geometry_columns values ('seen', 'geom', 'POLYGON', (select srs_id from gpkg_contents where table_name = 'lots'), 0, 0)")
    table.commit()
    table.close()
