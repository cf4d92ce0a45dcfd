pragma task_dispatching_policy (fifo_within_priorities);
pragma locking_policy (ceiling_locking);
with ada.real_time;
package hrt is
   type word is mod 2 ** 32;
   subtype moment is ada.real_time.time;
   assign_cost : constant := 1;
   test_cost : constant := 1;
   turn_cost : constant := 1;
   call_cost : constant := 2;
   null_cost : constant := 1;
   put_cost : constant := 1;
   finish_cost : constant := 1;
   function epoch return moment;
   function after (start : moment; ticks : natural) return moment;
   procedure work (ticks : positive);
   procedure put (value : word);
   procedure activation_end;
end hrt;
with hrt;
use hrt;
package d is
   package filter is
      procedure smooth (sample : in word; past : in word; mean : out word);
   end filter;
   package a is
      task hrt_thread is
         pragma priority (1);
      end hrt_thread;
   end a;
end d;
package body d is
   package body filter is
      procedure smooth (sample : in word; past : in word; mean : out word) is
      begin
         mean := (past * 3 + sample) / 4;
      end smooth;
   end filter;
   package body a is
      level : word := 0;
      task body hrt_thread is
         hrt_next : hrt.moment := hrt.after (hrt.epoch, 0);
      begin
         loop
            delay until hrt_next;
            hrt_next := hrt.after (hrt_next, 100);
            for i in word range 1 .. 3 loop
               filter.smooth (i * 100, level, level);
               put (level);
            end loop;
            activation_end;
         end loop;
      end hrt_thread;
   end a;
end d;
with d;
procedure hrt_main is
begin
   null;
end hrt_main;
