pragma task_dispatching_policy (fifo_within_priorities);
pragma locking_policy (ceiling_locking);
with ada.real_time;
package hrt is
   type word is mod 2 ** 32;
   subtype moment is ada.real_time.time;
   assign_cost : constant := 1;
   test_cost : constant := 1;
   turn_cost : constant := 1;
   call_cost : constant := 2;
   null_cost : constant := 1;
   put_cost : constant := 1;
   finish_cost : constant := 1;
   function epoch return moment;
   function after (start : moment; ticks : natural) return moment;
   procedure work (ticks : positive);
   procedure put (value : word);
   procedure activation_end;
end hrt;
with hrt;
use hrt;
package d is
   package a is
      task hrt_thread is
         pragma priority (1);
      end hrt_thread;
   end a;
   package s is
      protected hrt_obcs is
         pragma priority (2);
         procedure start (v : in word);
         entry hrt_wait (hrt_request : out word);
      private
         hrt_value : word := 0;
         hrt_open : boolean := false;
      end hrt_obcs;
      procedure start (v : in word) renames hrt_obcs.start;
      task hrt_thread is
         pragma priority (2);
      end hrt_thread;
      hrt_separation : constant := 20;
      hrt_jitter : constant := 2;
      hrt_external : constant boolean := true;
   end s;
end d;
package body d is
   package body a is
      task body hrt_thread is
         hrt_next : hrt.moment := hrt.after (hrt.epoch, 0);
      begin
         loop
            delay until hrt_next;
            hrt_next := hrt.after (hrt_next, 10);
            work (3);
            activation_end;
         end loop;
      end hrt_thread;
   end a;
   package body s is
      total : word := 0;
      protected body hrt_obcs is
         procedure start (v : in word) is
         begin
            hrt_value := v;
            hrt_open := true;
         end start;
         entry hrt_wait (hrt_request : out word) when hrt_open is
         begin
            hrt_request := hrt_value;
            hrt_open := false;
         end hrt_wait;
      end hrt_obcs;
      task body hrt_thread is
         v : word := 0;
      begin
         loop
            hrt_obcs.hrt_wait (v);
            total := total + v;
            put (total);
            work (2);
            activation_end;
         end loop;
      end hrt_thread;
   end s;
end d;
with d;
procedure hrt_main is
begin
   null;
end hrt_main;
