-- The schema topo: what is followed, what changed and is not judged yet, what somebody asks for, and what is wrong.
-- @SRID@ is the number of the coordinate system of all followed tables, @POSTGIS@ the schema of the extension's functions.
create schema topo;
comment on schema topo is 'errors of the followed tables, kept by topo-postgis';

-- ---- what is followed; written by `topo-postgis setup`

create table topo.setting (
  one boolean primary key default true check (one),
  grid text not null, x text not null, y text not null,        -- unit (i, j) lies at (x, y) + grid * (i, j)
  srid int not null,
  validates boolean not null,                                  -- each transaction at once; otherwise only the windows asked for
  socket text);                                                -- where commits ask before they are done; none where they do not

create table topo.source (
  class text primary key, kind text not null check (kind in ('point', 'line', 'polygon')),
  relation regclass not null unique, key text not null, geometry text not null);

create table topo.rule (
  number int primary key, word text not null, class text not null, other_class text not null,
  unique (word, class, other_class));

-- ---- what changed; the service takes rows away in the transaction that writes their errors

create table topo.change (
  id bigserial primary key,                                    -- CACHE 1: ids are in the order in which they were asked for
  xid xid8 not null default pg_current_xact_id(),
  at timestamptz not null default clock_timestamp(),
  who text not null default coalesce(nullif(current_setting('topo.who', true), ''), session_user),
  class text not null, key text not null, gone boolean not null,
  wkt text)                                                    -- the shape; none where the row is gone or has none
  with (autovacuum_vacuum_scale_factor = 0, autovacuum_vacuum_threshold = 2000);

create function topo.wake() returns trigger language plpgsql as $$
begin
  perform pg_notify('topo', '');                               -- one for a transaction, sent at its commit
  return null;
end $$;

-- Follows a table no longer.
create procedure topo.unwatch(class text) language plpgsql as $$
declare
  relation regclass := (select c.oid from topo.source s join pg_class c on c.oid = s.relation where s.class = unwatch.class);
begin
  if relation is not null then
    execute format('drop trigger if exists topo_log on %s', relation);
    execute format('drop trigger if exists topo_wake on %s', relation);
  end if;
  delete from topo.source s where s.class = unwatch.class;
  perform pg_notify('topo', '');
end $$;

-- Follows a table: a function with the names of its columns, and two triggers that fire in every role. A column that is gone fails no
-- edit: the service sees it, and waits.
create procedure topo.watch(relation regclass, class text, kind text, key text, geometry text) language plpgsql as $$
declare
  log text := format('topo.%I', 'log_' || class);
  old text;
begin
  for old in select s.class from topo.source s where s.class = watch.class or s.relation = watch.relation loop
    call topo.unwatch(old);
  end loop;
  insert into topo.source values (class, kind, relation, key, geometry);
  execute format('create or replace function %s() returns trigger language plpgsql security definer '
    'set search_path = pg_catalog, @POSTGIS@, pg_temp as $body$
    declare
      before text; after text; was text; now text;
    begin
      begin
        if tg_op <> ''INSERT'' then before := old.%2$I::text; was := st_astext(st_force2d(old.%3$I)); end if;
        if tg_op <> ''DELETE'' then after := new.%2$I::text; now := st_astext(st_force2d(new.%3$I)); end if;
      exception when undefined_column then return null;
      end;
      if tg_op = ''UPDATE'' and before = after and was is not distinct from now then return null; end if;
      if before is distinct from after and before is not null then
        insert into topo.change (class, key, gone) values (%4$L, before, true);
      end if;
      if after is not null then
        insert into topo.change (class, key, gone, wkt) values (%4$L, after, false, now);
      end if;
      return null;
    end $body$', log, key, geometry, class);
  execute format('create trigger topo_log after insert or update or delete on %s for each row execute function %s()', relation, log);
  execute format('create trigger topo_wake after insert or update or delete or truncate on %s for each statement '
    'execute function topo.wake()', relation);
  execute format('alter table %s enable always trigger topo_log, enable always trigger topo_wake', relation);
end $$;

-- All on which the service's picture of the tables rests beside their rows; another text means that it has to begin anew.
create function topo.signature() returns text language sql stable as $$
  select coalesce(string_agg(concat_ws(' ', s.class, s.kind, s.key, s.geometry, c.oid, c.relfilenode, k.atttypid, g.atttypid, g.atttypmod,
      t.tgenabled, t.xmin), ';' order by s.class), '')
    || '|' || (select coalesce(string_agg(concat_ws(' ', number, word, class, other_class), ';' order by number), '') from topo.rule)
    || '|' || (select concat_ws(' ', grid, x, y, srid, validates, socket) from topo.setting)
  from topo.source s left join pg_class c on c.oid = s.relation
    left join pg_attribute k on k.attrelid = c.oid and k.attname = s.key and not k.attisdropped
    left join pg_attribute g on g.attrelid = c.oid and g.attname = s.geometry and not g.attisdropped
    left join pg_trigger t on t.tgrelid = c.oid and t.tgname = 'topo_log'
$$;

-- Why a table cannot be followed as it is now.
create function topo.faults() returns setof text language sql stable set search_path = pg_catalog, @POSTGIS@, pg_temp as $$
  select format('class %s: ', s.class) || case
    when c.oid is null then 'its table is gone'
    when k.attname is null then format('%s has no column %s any more', s.relation, s.key)
    when g.attname is null then format('%s has no column %s any more', s.relation, s.geometry)
    when g.atttypid <> 'geometry'::regtype then format('the column %s of %s is no geometry any more', s.geometry, s.relation)
    when postgis_typmod_srid(g.atttypmod) <> (select srid from topo.setting)
      then format('%s has the coordinate system %s, and the errors have %s', s.relation, postgis_typmod_srid(g.atttypmod), (select srid from topo.setting))
    when t.oid is null or t.tgenabled <> 'A' then format('the trigger topo_log of %s is gone or switched off', s.relation)
    end
  from topo.source s left join pg_class c on c.oid = s.relation
    left join pg_attribute k on k.attrelid = c.oid and k.attname = s.key and not k.attisdropped
    left join pg_attribute g on g.attrelid = c.oid and g.attname = s.geometry and not g.attisdropped
    left join pg_trigger t on t.tgrelid = c.oid and t.tgname = 'topo_log'
  where c.oid is null or k.attname is null or g.attname is null or g.atttypid <> 'geometry'::regtype
    or postgis_typmod_srid(g.atttypmod) <> (select srid from topo.setting) or t.oid is null or t.tgenabled <> 'A'
  order by s.class
$$;

-- ---- what somebody asks for; taken away as changes are

create table topo.wish (
  id bigserial primary key, at timestamptz not null default clock_timestamp(),
  who text not null default coalesce(nullif(current_setting('topo.who', true), ''), session_user),
  word text not null check (word in ('mark', 'unmark', 'validate')),
  error bigint, note text,                                     -- of a mark; it counts for the error as it was seen
  x0 text, y0 text, x1 text, y1 text);                         -- of a window

-- Asks for a validation of a window, in the coordinates of the tables.
create function topo.validate(x0 double precision, y0 double precision, x1 double precision, y1 double precision) returns void
language plpgsql security definer set search_path = pg_catalog, pg_temp as $$
begin
  if (abs(x0) < 1e15 and abs(y0) < 1e15 and abs(x1) < 1e15 and abs(y1) < 1e15) is not true then
    raise 'a window has four numbers below 1e15' using errcode = 'check_violation';
  end if;
  insert into topo.wish (word, x0, y0, x1, y1) values ('validate', x0::text, y0::text, x1::text, y1::text);
  perform pg_notify('topo', '');
end $$;

-- ---- what stands; written by the service alone, each batch in one transaction

create table topo.state (
  one boolean primary key default true check (one),
  at timestamptz, features int not null default 0, errors int not null default 0,
  note text not null default '');                              -- what the service waits for, if it does
insert into topo.state default values;

-- The order in which features were first taken, which a new start keeps: pairs of an error stay in order.
create table topo.feature (number bigint primary key, class text not null, key text not null, unique (class, key));

create table topo.found (
  id bigint primary key,
  rule int not null, word text not null, class text not null, subject text not null, other_class text not null, other text not null,
  extent text not null, mark text not null, note text not null default '',
  listing text not null,                                       -- extent, frame and cells in grid units: by these it is known again
  polygons @POSTGIS@.geometry(MultiPolygon, @SRID@), lines @POSTGIS@.geometry(MultiLineString, @SRID@), points @POSTGIS@.geometry(MultiPoint, @SRID@));
create index on topo.found using gist (polygons);
create index on topo.found using gist (lines);
create index on topo.found using gist (points);

create table topo.dirty (number int primary key, place @POSTGIS@.geometry(Geometry, @SRID@) not null);

create table topo.refused (
  class text not null, key text not null, why text not null, at timestamptz not null default clock_timestamp(),
  place @POSTGIS@.geometry(Geometry, @SRID@), primary key (class, key));

create table topo.exception (
  id bigint generated always as identity primary key,
  rule int not null, word text not null, class text not null, subject text not null, other_class text not null, other text not null,
  who text not null, since timestamptz not null default clock_timestamp(), note text not null,
  lapsed timestamptz,                                          -- when its error changed or went; none while it stands
  listing text not null, place @POSTGIS@.geometry(Geometry, @SRID@));
create index on topo.exception using gist (place);
create unique index on topo.exception (rule, class, subject, other_class, other) where lapsed is null;

-- ---- what users see

-- The errors. Set mark to 'exception' or to 'error'; the service does it as soon as it looks.
create view topo.error as
  select id, rule, word, class, subject as subject_id, other_class, other as other_id, extent, mark, note, polygons, lines, points
  from topo.found;
create function topo.mark() returns trigger language plpgsql security definer set search_path = pg_catalog, topo, pg_temp as $$
begin
  if new.mark not in ('error', 'exception') then
    raise 'mark is ''error'' or ''exception''' using errcode = 'check_violation';
  end if;
  if new.mark <> old.mark or new.mark = 'exception' and new.note is distinct from old.note then
    insert into topo.wish (word, error, note) values (case new.mark when 'exception' then 'mark' else 'unmark' end, old.id, coalesce(new.note, ''));
    perform pg_notify('topo', '');
  end if;
  return new;
end $$;
create trigger topo_mark instead of update on topo.error for each row execute function topo.mark();

-- What was committed and is not judged yet: where it lies, whose it is.
create view topo.waiting as
  select id, at, who, class, key, gone, @POSTGIS@.st_geomfromtext(wkt, @SRID@)::@POSTGIS@.geometry(Geometry, @SRID@) as place from topo.change;

-- Whether a service runs, when it last wrote, and how much waits for it.
create view topo.status as
  select exists (select from pg_locks l join pg_database d on d.oid = l.database
      where l.locktype = 'advisory' and l.classid = 0 and l.objid = 7070 and l.granted and d.datname = current_database()) as running,
    at, features, errors, (select count(*) from topo.refused) as refused, (select count(*) from topo.dirty) as dirty,
    (select count(*) from topo.change) as waiting, (select min(c.at) from topo.change c) as waiting_since, note
  from topo.state;
