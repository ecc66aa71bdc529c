-- Express lifts skip the calls between the ground floor and the top. Each kind says to which end it goes first.
FEATURE Express
CHANGE
  MODULE cabin
    IF floor = 2 | floor = 3 THEN TREAT wanted_here = FALSE;
END

FEATURE ToTop
REQUIRE
  MODULE cabin VAR course;
CHANGE
  MODULE cabin
    IF wanted_above THEN IMPOSE next(course) := up;
END

FEATURE ToBottom
REQUIRE
  MODULE cabin VAR course;
CHANGE
  MODULE cabin
    IF wanted_below THEN IMPOSE next(course) := down;
END
