with ada.environment_variables;
with ada.real_time;
with ada.synchronous_task_control;
with hrt;
with hrt_forced;
with hrt_host;

package body hrt_rounds is

   use type ada.real_time.time;
   use type ada.real_time.time_span;

   length : constant := 10;     --  ticks from one round to the next
   used : constant := 4;        --  ticks of `work` of a round
   taken : constant := 2;       --  ticks of `work` of a preemption
   none : constant := -1;

   places : constant positive := positive'value (ada.environment_variables.value ("HRT_PLACES"));

   --  The places at which the task is still to be preempted, from a time on.
   first, second : integer := none;
   pragma volatile (first);
   pragma volatile (second);
   from : ada.real_time.time := hrt.epoch;
   pragma volatile (from);
   count : natural := 0;
   pragma volatile (count);

   go : ada.synchronous_task_control.suspension_object;

   task preempting is
      pragma priority (20);
   end preempting;

   task body preempting is
   begin
      loop
         ada.synchronous_task_control.suspend_until_true (go);
         hrt.work (taken);
      end loop;
   end preempting;

   --  The preempting task runs before this returns: its priority is greater.
   procedure look (place : natural) is
   begin
      if place = first and then ada.real_time.clock >= from then
         first := second;
         second := none;
         count := count + 1;
         ada.synchronous_task_control.set_true (go);
      end if;
   end look;

   procedure play_one (start : ada.real_time.time; one, other : integer; since : natural) is
      tick : constant ada.real_time.time_span := hrt.after (hrt.epoch, 1) - hrt.epoch;
      next, now : ada.real_time.time;
   begin
      delay until start;
      next := hrt.after (start, 0);
      count := 0;
      from := start + since * (tick / 2);
      first := one;
      second := other;
      hrt.work (used);
      now := ada.real_time.clock;
      first := none;
      second := none;
      hrt_host.write
        ("round " & integer'image (one) & " " & integer'image (other) & " " & integer'image (since) & " "
         & integer'image (count) & " " & integer'image ((now - next + tick / 4) / tick - taken * count) & ascii.lf);
   end play_one;

   procedure play is
      start : ada.real_time.time := hrt.epoch;
   begin
      hrt_forced.hook := look'access;
      for since in 0 .. 1 loop
         for one in 0 .. places - 1 loop
            for other in none .. places - 1 loop
               play_one (start, one, other, since * 5);
               start := hrt.after (start, length);
            end loop;
         end loop;
      end loop;
      hrt_host.leave;
   end play;

end hrt_rounds;
