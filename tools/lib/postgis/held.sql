-- Who holds what: the rows of followed tables that a transaction has changed or locked and not ended, by the extension pgrowlocks.
-- It looks at all rows of the tables each time.
create function topo.holders() returns table (number bigint, class text, key text, who text, application text, since timestamptz,
  place @POSTGIS@.geometry) language plpgsql security definer set search_path = pg_catalog, @POSTGIS@, pg_temp as $$
declare
  of topo.source;
begin
  number := 0;
  for of in select * from topo.source order by topo.source.class loop
    for class, key, who, application, since, place in execute format(
      'select %L::text, t.%I::text, a.usename::text, a.application_name, a.xact_start, t.%I
       from @ROWLOCKS@.pgrowlocks(%L) l join pg_stat_activity a on a.pid = any (l.pids) join %s t on t.ctid = l.locked_row
       where l.modes && array[''Update'', ''No Key Update'', ''Delete'', ''For Update'', ''For No Key Update''] order by 2',
      of.class, of.key, of.geometry, of.relation, of.relation) loop
      number := number + 1;
      return next;
    end loop;
  end loop;
end $$;
create view topo.held as select number, class, key, who, application, since, place::@POSTGIS@.geometry(Geometry, @SRID@) as place from topo.holders();
