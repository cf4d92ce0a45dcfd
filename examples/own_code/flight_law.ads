--  The pitch law of examples/flight_control.design, in the place of a
--  statement work (10).

with Hrt;

package Flight_Law is

   Limit : constant := 300;

   --  From the attitude, the speed and the mode to the angle of the elevator,
   --  which is 0 to Limit. It neither waits nor keeps anything.
   procedure Compute
     (Pitch, Rate, Speed, Mode : Hrt.Word;
      Command                  : out Hrt.Word);

end Flight_Law;
