package Right_Protected_Data is
   Shared : array (1 .. 2) of Integer := (others => 0);
end Right_Protected_Data;
