--  Main program: a task that sleeps most of the time. The environment sets
--  HRT_TURNS, the number of its activations.

with ada.environment_variables;
with ada.real_time;
with hrt;
with hrt_host;

procedure hrt_stopped is
   pragma priority (10);
   period : constant := 40;
   turns : constant positive := positive'value (ada.environment_variables.value ("HRT_TURNS"));
   next : ada.real_time.time := hrt.epoch;
begin
   for turn in 1 .. turns loop
      delay until next;
      next := hrt.after (next, period);
      hrt.work (1);
      hrt.activation_end;
   end loop;
   hrt_host.leave;
end hrt_stopped;
