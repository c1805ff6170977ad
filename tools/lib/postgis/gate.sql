-- Refuses a commit that brings new errors: a deferred constraint asks the service at its socket, and waits. Needs plpython3u.
create extension if not exists plpython3u;
create or replace function topo.gate() returns trigger language plpython3u security definer as $$
  import json, socket
  newest = plpy.execute("select max(id) as id from topo.change where xid = pg_current_xact_id()")[0]['id']
  if TD['new']['id'] != newest:
    return None                                            # once for a transaction, at its last change
  plpy.execute("select pg_advisory_xact_lock(7071)")       # held until after the commit: one at a time
  rows = plpy.execute("select class, key, gone, wkt from topo.change where xid = pg_current_xact_id() order by id")
  door = plpy.execute("select socket from topo.setting")[0]['socket']
  with socket.socket(socket.AF_UNIX) as guest:
    guest.settimeout(5)                                    # neither a cancel nor statement_timeout ends this wait
    try:
      guest.connect(door)
      guest.sendall((json.dumps([[r['class'], r['key'], r['gone'], r['wkt']] for r in rows]) + '\n').encode())
      with guest.makefile() as answers:
        said = json.loads(answers.readline())
    except (OSError, ValueError) as fault:
      plpy.error('topo does not answer: %s' % fault, sqlstate='58000')
  if said:
    plpy.error('topo refuses this commit: %s' % said[0], detail='\n'.join(said[1:20]) or None, sqlstate='23514')
$$;
drop trigger if exists topo_gate on topo.change;
create constraint trigger topo_gate after insert on topo.change deferrable initially deferred for each row execute function topo.gate();
