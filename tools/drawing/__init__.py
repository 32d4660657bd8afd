"""The pictures of the printed reference as SVG, drawn from rows of tables and lines of programs' output; and the picture of the crates, from crates.txt."""
from .bits import feature_picture, flags_picture
from .coasting import coast_picture
from .collecting import lost_picture
from .cutting import cut_picture
from .first import first_picture, way_picture
from .layers import layers_picture
from .layouts import whole_picture
from .modes import modes_picture
from .runs import runs_picture
from .sequence import sequence_picture, sequence_pictures
from .splitting import parts_picture
