-- design logged_control
-- thread control priority 2 jitter 0 response 10 deadline 15
pragma task_dispatching_policy (fifo_within_priorities);
pragma locking_policy (ceiling_locking);
with ada.real_time;
package hrt is
   type word is mod 2 ** 32;
   subtype moment is ada.real_time.time;
   assign_cost : constant := 1;
   test_cost : constant := 1;
   turn_cost : constant := 1;
   call_cost : constant := 2;
   null_cost : constant := 1;
   put_cost : constant := 1;
   finish_cost : constant := 1;
   function epoch return moment;
   function after (start : moment; ticks : natural) return moment;
   procedure work (ticks : positive);
   procedure put (value : word);
   procedure activation_end;
end hrt;
with hrt;
use hrt;
package logged_control is
   package state is
      protected hrt_object is
         pragma priority (2);
         procedure set (v : in word);
         procedure get (v : out word);
      private
         held : word := 0;
      end hrt_object;
      procedure set (v : in word) renames hrt_object.set;
      procedure get (v : out word) renames hrt_object.get;
   end state;
   package journal is
      protected hrt_object is
         pragma priority (1);
         procedure add (v : in word);
      private
         entries : word := 0;
      end hrt_object;
      procedure add (v : in word) renames hrt_object.add;
   end journal;
   package control is
      task hrt_thread is
         pragma priority (2);
      end hrt_thread;
   end control;
   package reporter is
      task hrt_thread is
         pragma priority (1);
      end hrt_thread;
   end reporter;
end logged_control;
package body logged_control is
   package body state is
      protected body hrt_object is
         procedure set (v : in word) is
         begin
            held := v;
         end set;
         procedure get (v : out word) is
         begin
            v := held;
         end get;
      end hrt_object;
   end state;
   package body journal is
      protected body hrt_object is
         procedure add (v : in word) is
         begin
            entries := entries + 1;
            work (6);
            put (v);
         end add;
      end hrt_object;
   end journal;
   package body control is
      level : word := 100;
      task body hrt_thread is
         hrt_next : hrt.moment := hrt.after (hrt.epoch, 0);
      begin
         loop
            delay until hrt_next;
            hrt_next := hrt.after (hrt_next, 20);
            work (4);
            level := level + 1;
            state.set (level);
            activation_end;
         end loop;
      end hrt_thread;
   end control;
   package body reporter is
      seen : word := 0;
      task body hrt_thread is
         hrt_next : hrt.moment := hrt.after (hrt.epoch, 0);
      begin
         loop
            delay until hrt_next;
            hrt_next := hrt.after (hrt_next, 1);
            state.get (seen);
            journal.add (seen);
            activation_end;
         end loop;
      end hrt_thread;
   end reporter;
end logged_control;
with logged_control;
procedure hrt_main is
begin
   null;
end hrt_main;
