pragma task_dispatching_policy (fifo_within_priorities);
pragma locking_policy (ceiling_locking);
with ada.real_time;
package hrt is
   type word is mod 2 ** 32;
   subtype moment is ada.real_time.time;
   assign_cost : constant := 1;
   test_cost : constant := 1;
   turn_cost : constant := 1;
   call_cost : constant := 2;
   null_cost : constant := 1;
   put_cost : constant := 1;
   finish_cost : constant := 1;
   function epoch return moment;
   function after (start : moment; ticks : natural) return moment;
   procedure work (ticks : positive);
   procedure put (value : word);
   procedure activation_end;
end hrt;
with hrt;
use hrt;
package kinds is
   package scale is
      procedure double (a : in word; y : out word);
   end scale;
   package board is
      protected hrt_object is
         pragma priority (2);
         procedure note (v : in word);
      private
         last : word := 0;
      end hrt_object;
      procedure note (v : in word) renames hrt_object.note;
   end board;
   package sampler is
      task hrt_thread is
         pragma priority (1);
      end hrt_thread;
   end sampler;
   package printer is
      protected hrt_obcs is
         pragma priority (2);
         procedure print (v : in word);
         entry hrt_wait (hrt_request : out word);
      private
         hrt_value : word := 0;
         hrt_open : boolean := false;
      end hrt_obcs;
      procedure print (v : in word) renames hrt_obcs.print;
      task hrt_thread is
         pragma priority (2);
      end hrt_thread;
      hrt_separation : constant := 100;
      hrt_jitter : constant := 0;
      hrt_external : constant boolean := false;
   end printer;
   package button is
      protected hrt_obcs is
         pragma priority (3);
         procedure press (v : in word);
         entry hrt_wait (hrt_request : out word);
      private
         hrt_value : word := 0;
         hrt_open : boolean := false;
      end hrt_obcs;
      procedure press (v : in word) renames hrt_obcs.press;
      task hrt_thread is
         pragma priority (3);
      end hrt_thread;
      hrt_separation : constant := 200;
      hrt_jitter : constant := 3;
      hrt_external : constant boolean := true;
   end button;
end kinds;
package body kinds is
   package body scale is
      procedure double (a : in word; y : out word) is
      begin
         y := a * 2;
      end double;
   end scale;
   package body board is
      protected body hrt_object is
         procedure note (v : in word) is
         begin
            last := v;
            work (2);
         end note;
      end hrt_object;
   end board;
   package body sampler is
      x : word := 1;
      task body hrt_thread is
         hrt_next : hrt.moment := hrt.after (hrt.epoch, 10);
      begin
         loop
            delay until hrt_next;
            hrt_next := hrt.after (hrt_next, 100);
            work (5);
            scale.double (x, x);
            board.note (x);
            printer.print (x);
            activation_end;
         end loop;
      end hrt_thread;
   end sampler;
   package body printer is
      protected body hrt_obcs is
         procedure print (v : in word) is
         begin
            hrt_value := v;
            hrt_open := true;
         end print;
         entry hrt_wait (hrt_request : out word) when hrt_open is
         begin
            hrt_request := hrt_value;
            hrt_open := false;
         end hrt_wait;
      end hrt_obcs;
      task body hrt_thread is
         v : word := 0;
      begin
         loop
            hrt_obcs.hrt_wait (v);
            put (v);
            activation_end;
         end loop;
      end hrt_thread;
   end printer;
   package body button is
      protected body hrt_obcs is
         procedure press (v : in word) is
         begin
            hrt_value := v;
            hrt_open := true;
         end press;
         entry hrt_wait (hrt_request : out word) when hrt_open is
         begin
            hrt_request := hrt_value;
            hrt_open := false;
         end hrt_wait;
      end hrt_obcs;
      task body hrt_thread is
         v : word := 0;
      begin
         loop
            hrt_obcs.hrt_wait (v);
            board.note (v);
            activation_end;
         end loop;
      end hrt_thread;
   end button;
end kinds;
with kinds;
procedure hrt_main is
begin
   null;
end hrt_main;
