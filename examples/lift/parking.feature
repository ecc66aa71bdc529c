-- An empty lift goes back to the ground floor and waits there.
FEATURE Parking
CHANGE
  MODULE cabin
    IF !wanted & door = closed & floor > 1 THEN IMPOSE next(floor) := floor - 1;
END
