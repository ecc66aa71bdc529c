-- A bell that rings from a press until the cabin stands. While it rings nothing is wanted but the ground floor.
FEATURE Alarm
INTRODUCE
  MODULE cabin
    VAR bell : {silent, ringing};
    ASSIGN
      init(bell) := silent;
      next(bell) := case stands : silent; bell = ringing : ringing; TRUE : {silent, ringing}; esac;
CHANGE
  MODULE cabin
    IF bell = ringing THEN
      TREAT want2 = FALSE;
      TREAT want3 = FALSE;
      TREAT want4 = FALSE;
      IMPOSE next(course) := down;
END

FEATURE Display
REQUIRE
  MODULE cabin VAR bell : {silent, ringing};
INTRODUCE
  MODULE main
    DEFINE shown := case cabin.bell = ringing : 0; TRUE : cabin.floor; esac;
    INVARSPEC shown <= 4
END
