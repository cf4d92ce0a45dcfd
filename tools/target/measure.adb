--  What things cost on this host, to choose COSTS by, in microseconds: the
--  median, what 99 of 100 tries keep, and the greatest of many tries.

pragma task_dispatching_policy (fifo_within_priorities);
pragma locking_policy (ceiling_locking);

with ada.real_time; use ada.real_time;
with ada.text_io;

procedure measure is
   pragma priority (40);

   tries : constant := 4000;
   type times is array (1 .. tries) of duration;

   protected lock is
      pragma priority (60);
      procedure set (v : integer);
   private
      last : integer := 0;
   end lock;

   protected body lock is
      procedure set (v : integer) is
      begin
         last := v;
      end set;
   end lock;

   --  A sporadic unit as a generated text has it.
   protected obcs is
      pragma priority (60);
      procedure start (v : integer);
      entry wait (v : out integer);
   private
      value : integer := 0;
      open : boolean := false;
   end obcs;

   protected body obcs is
      procedure start (v : integer) is
      begin
         value := v;
         open := true;
      end start;
      entry wait (v : out integer) when open is
      begin
         v := value;
         open := false;
      end wait;
   end obcs;

   woken : time := clock;
   pragma volatile (woken);

   task started is
      pragma priority (50);
   end started;

   task body started is
      v : integer;
   begin
      loop
         obcs.wait (v);
         woken := clock;
         exit when v < 0;
      end loop;
   end started;

   function image (t : duration) return string is
      tenths : constant integer := integer (t * 10_000_000.0);
   begin
      return integer'image (tenths / 10) & "." & integer'image (tenths mod 10) (2);
   end image;

   procedure sort (t : in out times) is
      x : duration;
   begin
      for i in t'first + 1 .. t'last loop
         x := t (i);
         for j in reverse t'first .. i - 1 loop
            exit when t (j) <= x;
            t (j + 1) := t (j);
            t (j) := x;
         end loop;
      end loop;
   end sort;

   procedure tell (what : string; t : in out times) is
   begin
      sort (t);
      ada.text_io.put_line
        (what & ": median" & image (t (tries / 2)) & ", 99 of 100" & image (t (tries - tries / 100))
         & ", greatest" & image (t (tries)));
   end tell;

   t : times;
   before : time;
   type word is mod 2 ** 32;
   x : word := 0;
   pragma volatile (x);
begin
   for i in t'range loop
      before := clock;
      t (i) := to_duration (clock - before);
   end loop;
   tell ("reading the clock", t);
   for i in t'range loop
      before := clock;
      for j in 1 .. 100 loop
         x := x * 3 + 1;
      end loop;
      t (i) := to_duration (clock - before);
   end loop;
   tell ("100 assignments", t);
   for i in t'range loop
      before := clock;
      lock.set (i);
      t (i) := to_duration (clock - before);
   end loop;
   tell ("call of a protected operation", t);
   for i in t'range loop
      before := clock;
      obcs.start (i);
      t (i) := to_duration (woken - before);
   end loop;
   tell ("request, until the task that it starts runs", t);
   for i in t'range loop
      before := clock;
      obcs.start (i);
      t (i) := to_duration (clock - before);
   end loop;
   tell ("request, there and back", t);
   for i in t'range loop
      before := clock + microseconds (150);
      delay until before;
      t (i) := to_duration (clock - before);
   end loop;
   tell ("delay until, how late", t);
   obcs.start (-1);
end measure;
