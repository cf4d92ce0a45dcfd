--  Body of package hrt for comparing a run with its replay tick by tick. It
--  belongs with a text that costed.py has made to pay its costs.
--
--  A tick is used up by the task that runs when three quarters of it are over.
--  So effects come a quarter of a tick before a whole one, and releases shortly
--  behind it: in the order in which the modelled processor has them. A loop
--  that reads the clock counts such moments, but not those since which another
--  task has run. Where the host took the processor meanwhile, they are counted.
--
--  The environment sets HRT_TICK_US, the microseconds of a tick (10000), and
--  HRT_LEAD_MS, the milliseconds up to the epoch (300).

with ada.environment_variables;
with ada.exceptions;
with ada.task_identification;
with ada.task_termination;
with hrt_host;
with system;

package body hrt is

   use type ada.real_time.time;
   use type ada.real_time.time_span;

   function setting (name : string; otherwise : natural) return natural is
     (if ada.environment_variables.exists (name)
      then natural'value (ada.environment_variables.value (name))
      else otherwise);

   tick : constant ada.real_time.time_span :=
     ada.real_time.microseconds (setting ("HRT_TICK_US", 10000));
   zero : constant moment := ada.real_time.clock
     + ada.real_time.milliseconds (setting ("HRT_LEAD_MS", 300));

   --  When any task was last seen to run. One processor runs all tasks, so what
   --  is much longer ago is time that the host took for others.
   seen : moment := zero;
   pragma volatile (seen);
   longest : constant ada.real_time.time_span := tick / 4;

   --  Grows with each call of work, by whatever task. So a task that finds it
   --  as it was has run alone since.
   type number is mod 2 ** 32;
   calls : number := 0;
   pragma volatile (calls);

   --  The ticks that each task has used itself in its activation, by its base
   --  priority. Only the task changes its own number.
   used : array (system.any_priority) of integer := (others => 0);
   pragma volatile_components (used);

   --  The release of a task that woke up late, up to its next call of work.
   owed : moment := zero;
   is_owed : boolean := false;
   pragma volatile (owed);
   pragma volatile (is_owed);

   --  How many moments of use lie before a time.
   function moments (now : moment) return integer is
     ((now - zero + tick / 4) / tick);

   --  One line: the ticks since the epoch, what happened, the priority of the
   --  calling task, by which it is known, and perhaps more.
   procedure tell (what : string; more : string) is
   begin
      hrt_host.write
        (integer'image (moments (ada.real_time.clock)) & " " & what
         & integer'image (hrt_host.priority) & more & ascii.lf);
   end tell;

   --  Tells that the host took the processor, where no task was seen to run
   --  since a time at which one was ready.
   procedure look (now, since : moment) is
   begin
      if now - since > longest then
         tell ("away", duration'image (ada.real_time.to_duration (now - since)));
      end if;
   end look;

   function epoch return moment is (zero);

   --  A task calls this at once when it wakes up, with the time at which it is
   --  released. Where the host woke it late, and no task has run since, what
   --  has passed is counted to it by its next call of work.
   function after (start : moment; ticks : natural) return moment is
      now : constant moment := ada.real_time.clock;
   begin
      if seen < start and start < now then
         look (now, start);
         owed := start;
         is_owed := true;
      end if;
      return start + ticks * tick;
   end after;

   procedure work (ticks : positive) is
      left : integer := ticks;
      now : moment;
      passed : integer;
      known, current : number;
   begin
      --  The clock is read after the count. So a task that preempts between the
      --  two changes the count, and its ticks are not counted to this task.
      calls := calls + 1;
      known := calls;
      now := ada.real_time.clock;
      passed := moments (if is_owed then owed else now);
      is_owed := false;
      seen := now;
      while left > 0 loop
         now := ada.real_time.clock;
         current := calls;
         if current = known then
            left := left - (moments (now) - passed);
            look (now, seen);
         else
            now := ada.real_time.clock;
         end if;
         passed := moments (now);
         known := current;
         seen := now;
      end loop;
      used (hrt_host.priority) := used (hrt_host.priority) + ticks - left;
   end work;

   procedure put (value : word) is
   begin
      work (put_cost);
      tell ("put", word'image (value));
   end put;

   procedure activation_end is
   begin
      work (finish_cost);
      tell ("end", " used" & integer'image (used (hrt_host.priority)));
      used (hrt_host.priority) := 0;
   end activation_end;

   --  A task that ends, as by a violated ceiling, would do so without a word.
   protected watch is
      procedure ended
        (cause : ada.task_termination.cause_of_termination;
         who : ada.task_identification.task_id;
         what : ada.exceptions.exception_occurrence);
   end watch;

   protected body watch is
      procedure ended
        (cause : ada.task_termination.cause_of_termination;
         who : ada.task_identification.task_id;
         what : ada.exceptions.exception_occurrence)
      is
         use type ada.task_termination.cause_of_termination;
      begin
         if cause = ada.task_termination.unhandled_exception then
            tell ("dead", " " & ada.exceptions.exception_name (what) & " " & ada.exceptions.exception_message (what));
         else
            tell ("dead", "");
         end if;
      end ended;
   end watch;

begin
   if not hrt_host.ranked then
      raise program_error with "no right to real-time priorities: neither they nor ceilings would hold";
   end if;
   ada.task_termination.set_dependents_fallback_handler (watch.ended'access);
end hrt;
