package body hrt_forced is

   procedure at_place (place : natural) is
   begin
      if hook /= null then
         hook (place);
      end if;
   end at_place;

end hrt_forced;
