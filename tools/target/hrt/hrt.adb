--  Example body of package hrt for GNAT on Linux. The specification is that of
--  the generated text, and needs nothing of its own here. The body meets pragma
--  Profile (Ravenscar) and (Jorvik) too. Rules that every body keeps:
--
--  * epoch is one moment for all tasks. It lies behind the elaboration of the
--    whole program, since a task of a nested package may start before the
--    bodies of later units are elaborated.
--  * work and put are called inside protected actions, so they do not wait: no
--    delay, no entry call, no Ada.Text_IO.
--  * work burns the calling task's own processor time: a task that is
--    preempted inside work goes on where it was.
--
--  The environment sets HRT_TICK_US, the microseconds of a tick (1000),
--  HRT_LEAD_MS, the milliseconds from the elaboration of this body to the
--  epoch (300), and HRT_PAY, where it is 1: put and activation_end burn
--  put_cost and finish_cost.

with ada.environment_variables;
with ada.exceptions;
with ada.execution_time;
with ada.task_identification;
with ada.task_termination;
with hrt_host;

package body hrt is

   use type ada.real_time.time;
   use type ada.real_time.time_span;
   use type ada.execution_time.cpu_time;

   function setting (name : string; otherwise : natural) return natural is
     (if ada.environment_variables.exists (name)
      then natural'value (ada.environment_variables.value (name))
      else otherwise);

   tick : constant ada.real_time.time_span :=
     ada.real_time.microseconds (setting ("HRT_TICK_US", 1000));
   pays : constant boolean := setting ("HRT_PAY", 0) = 1;
   zero : constant moment := ada.real_time.clock
     + ada.real_time.milliseconds (setting ("HRT_LEAD_MS", 300));

   --  When any task was last seen to run inside work. One processor runs all
   --  tasks, so a gap is time that the host took for others.
   seen : moment := zero;
   pragma volatile (seen);

   function epoch return moment is (zero);

   --  One line: the seconds since the epoch, what happened, the priority of the
   --  calling task, by which it is known, and perhaps more. The quotient of two
   --  time spans is an integer, so this is no count of microseconds: it would
   --  overflow after 36 minutes.
   procedure tell (what : string; more : string) is
   begin
      hrt_host.write
        (duration'image (ada.real_time.to_duration (ada.real_time.clock - zero))
         & " " & what & integer'image (hrt_host.priority) & more & ascii.lf);
   end tell;

   --  A task calls this at once when it wakes up, with the time of its release.
   --  If no task was seen to run since then, the host woke this task late.
   function after (start : moment; ticks : natural) return moment is
      now : constant moment := ada.real_time.clock;
   begin
      if seen < start and then now - start > tick then
         tell ("away", duration'image (ada.real_time.to_duration (now - start)));
      end if;
      return start + ticks * tick;
   end after;

   procedure work (ticks : positive) is
      goal : constant ada.execution_time.cpu_time :=
        ada.execution_time.clock + ticks * tick;
      now : moment := ada.real_time.clock;
   begin
      seen := now;
      while ada.execution_time.clock < goal loop
         now := ada.real_time.clock;
         if now - seen > tick then
            tell ("away", duration'image (ada.real_time.to_duration (now - seen)));
            now := ada.real_time.clock;
         end if;
         seen := now;
      end loop;
   end work;

   procedure put (value : word) is
   begin
      if pays then
         work (put_cost);
      end if;
      tell ("put", word'image (value));
   end put;

   procedure activation_end is
   begin
      if pays then
         work (finish_cost);
      end if;
      tell ("end", "");
   end activation_end;

   --  A task that ends, as by a violated ceiling, would do so without a word.
   protected watch is
      procedure ended
        (cause : ada.task_termination.cause_of_termination;
         who : ada.task_identification.task_id;
         what : ada.exceptions.exception_occurrence);
   end watch;

   protected body watch is
      procedure ended
        (cause : ada.task_termination.cause_of_termination;
         who : ada.task_identification.task_id;
         what : ada.exceptions.exception_occurrence)
      is
         use type ada.task_termination.cause_of_termination;
      begin
         if cause = ada.task_termination.unhandled_exception then
            tell ("dead", " " & ada.exceptions.exception_name (what) & " " & ada.exceptions.exception_message (what));
         else
            tell ("dead", "");
         end if;
      end ended;
   end watch;

begin
   if not hrt_host.ranked then
      raise program_error with "no right to real-time priorities: neither they nor ceilings would hold";
   end if;
   ada.task_termination.set_dependents_fallback_handler (watch.ended'access);
end hrt;
