"""Names that HyperCard 2.x has built in, to tell its commands and functions from externals and other stacks' handlers;
messages that it sends and this program never does; and properties that say only how something looks."""

COMMANDS = frozenset((
    "add answer arrowkey ask beep choose click close commandkeydown controlkey convert copy create debug delete dial "
    "disable divide do domenu drag edit enable enterinfield enterkey exit export find functionkey get global go help "
    "hide import keydown lock mark multiply open palette pass picture play pop print push put read reply request "
    "reset return returninfield returnkey run save select send set show sort start stop subtract tabkey type unlock "
    "unmark visual wait write").split())

FUNCTIONS = frozenset((
    "abs annuity atan average chartonum clickchunk clickh clickline clickloc clicktext clickv commandkey cmdkey "
    "compound controlkey cos date destination diskspace exp exp1 exp2 foundchunk foundfield foundline foundtext "
    "heapspace length ln ln1 log2 max menus min mouse mouseclick mouseh mouseloc mousev number numtochar offset "
    "optionkey param paramcount params programs random result round screenrect seconds secs selectedbutton "
    "selectedchunk selectedfield selectedline selectedloc selectedtext shiftkey sin sound speech sqrt stacks "
    "stackspace sum systemversion tan target ticks time tool trunc value voices windows").split())

NEVER_SENT = frozenset((
    "idle mousestilldown mousewithin mouseenter mouseleave mousedoubleclick closestack suspendstack resumestack "
    "suspend resume quit startup newstack deletestack newbackground deletebackground newbutton deletebutton newfield "
    "deletefield deletecard returninfield enterinfield tabkey returnkey enterkey arrowkey controlkey commandkeydown "
    "functionkey keydown help mousedowninpicture mouseupinpicture appleevent movewindow sizewindow closepalette "
    "openpalette close choose copy cut paste").split())

LOOKS = frozenset((
    "cursor lockscreen lockrecent textfont textsize textstyle textalign textheight rect rectangle loc location style "
    "icon showname showlines widemargins width height top left right bottom topleft botright bottomright showpict "
    "brush pattern filled linesize centered grid multiple multispace polysides textarrows powerkeys blindtyping "
    "dragspeed userlevel autohilite autotab dontwrap scroll fixedlineheight dontsearch autoselect titlewidth zoomed "
    "debug scripttextfont scripttextsize markchar cmdchar").split())
