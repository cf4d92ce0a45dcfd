--  The body of the operation low_pass of the passive object filters. It rounds
--  to the nearest value, and takes samples over Greatest as Greatest.

separate (Flight.Filters)
procedure Low_Pass (Sample : in Word; Past : in Word; Smooth : out Word) is
   Greatest : constant Word := 2 ** 16;
begin
   Smooth :=
     (Word'Min (Past, Greatest) * 7 + Word'Min (Sample, Greatest) + 4) / 8;
end Low_Pass;
