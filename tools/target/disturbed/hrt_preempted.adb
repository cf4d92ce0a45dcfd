--  Main program: a task is preempted at each place of `work`.

with hrt_rounds;

procedure hrt_preempted is
   pragma priority (10);
begin
   hrt_rounds.play;
end hrt_preempted;
