--  What costed.py puts into a generated text: statements pay their costs, and
--  sections and requests tell their lines.

with hrt;

package hrt_model is

   procedure pay (ticks : positive);

   --  Pays, and is true: it stands before a condition.
   function paid (ticks : positive) return boolean;

   --  One line, as the modelled processor tells it, with the priority of the
   --  task in the place of its name.
   procedure tell (what, object : string);

   function image (value : hrt.word) return string is (hrt.word'image (value));

end hrt_model;
