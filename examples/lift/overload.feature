-- With too much load the door stays open, and the cabin stays where it is.
FEATURE Overload
REQUIRE
  MODULE cabin VAR door : {closed, open}; floor : 1..4;
INTRODUCE
  MODULE cabin
    VAR heavy : boolean;
    ASSIGN
      init(heavy) := FALSE;
      next(heavy) := case door = open : {FALSE, TRUE}; TRUE : heavy; esac;
    INVARSPEC heavy -> door = open
CHANGE
  MODULE cabin
    IF heavy THEN
      IMPOSE next(door) := open;
      IMPOSE next(floor) := floor;
END
