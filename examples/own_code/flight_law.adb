package body Flight_Law is

   use type Hrt.Word;

   type Number is range -2 ** 62 .. 2 ** 62;

   --  Gains in 256ths, as the modes of the pilot's switch have them.
   type Gains is record
      Of_Pitch, Of_Rate : Number;
   end record;

   Direct  : constant Gains := (Of_Pitch => 512, Of_Rate => 256);
   Assured : constant Gains := (Of_Pitch => 256, Of_Rate => 128);

   --  At greater speed the same angle has a greater effect.
   Reference : constant Number := 128;

   procedure Compute
     (Pitch, Rate, Speed, Mode : Hrt.Word;
      Command                  : out Hrt.Word)
   is
      Chosen : constant Gains := (if Mode = 0 then Direct else Assured);
      Sum    : Number;
   begin
      if Mode > 1 then
         Command := 0;
         return;
      end if;
      Sum := Chosen.Of_Pitch * Number (Pitch) + Chosen.Of_Rate * Number (Rate);
      if Mode = 1 then
         Sum := Sum * Reference / (Reference + Number (Speed mod 4096));
      end if;
      Command := Hrt.Word (Number'Min (Sum / 256, Limit));
   end Compute;

end Flight_Law;
