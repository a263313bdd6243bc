"""A side that syncs with a relay whose boxes are known, for `.ci/old-files`."""
from hostile.answers import Course, replied
from hostile.areas import BOXES, box_area, found_in
from hostile.formats import Box


class Synced(Course):
    """The course of a sync with a relay that holds these boxes."""

    def __init__(self, side, boxes, said):
        self.boxes = boxes
        super().__init__(side, b"", said)

    def ask(self, request, answers):
        reply = replied(self.boxes, request)
        return reply[0], reply[1:]


def boxes_of(image):
    """The boxes of a relay's file, up to the first area that has none."""
    boxes = {}
    for k in range(BOXES):
        box = found_in(image, box_area(k), Box).record
        if not box:
            break
        boxes[box.name] = box
    return boxes


def keeps(side):
    """What is told of a side here, whose texts aren't known."""
    texts, packets = ([position for position, _ in each] for each in (side.texts, side.packets))
    return side.epoch, side.latest, side.reach, side.kept, texts, packets, side.awaiting
