--  The hook that test_bodies.py puts after each statement of `work`.

package hrt_forced is

   type look is access procedure (place : natural);

   --  What is called at each place, if anything is. It is set at a time when no
   --  task is inside `work`.
   hook : look := null;
   pragma volatile (hook);

   --  Calls the hook with the number of a place.
   procedure at_place (place : natural);

end hrt_forced;
