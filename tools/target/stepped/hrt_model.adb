with ada.real_time;
with hrt_host;

package body hrt_model is

   use type ada.real_time.time;
   use type ada.real_time.time_span;

   tick : constant ada.real_time.time_span := hrt.after (hrt.epoch, 1) - hrt.epoch;

   procedure pay (ticks : positive) is
   begin
      hrt.work (ticks);
   end pay;

   function paid (ticks : positive) return boolean is
   begin
      hrt.work (ticks);
      return true;
   end paid;

   procedure tell (what, object : string) is
   begin
      hrt_host.write
        (integer'image ((ada.real_time.clock - hrt.epoch + tick / 4) / tick)
         & " " & what & integer'image (hrt_host.priority) & " " & object & ascii.lf);
   end tell;

end hrt_model;
