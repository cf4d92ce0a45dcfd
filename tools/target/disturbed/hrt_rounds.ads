--  Rounds in which a task calls `work`, and a second task preempts it at one or
--  two chosen places. The environment sets HRT_PLACES, the number of places.

package hrt_rounds is
   pragma elaborate_body;

   --  Plays all rounds and ends the program. Each round writes a line: the two
   --  places (-1 for none), the half ticks after which the first one counts, how
   --  often the task was preempted, and the ticks that it used itself.
   procedure play;

end hrt_rounds;
