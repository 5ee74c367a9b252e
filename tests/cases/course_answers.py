"""What pupils write for the course's exercises, right and wrong (screens/course/lessons.txt), each checked by CHECK."""
import course_lessons
import teaching_runs

LIMIT = "30"  # seconds: an answer that never ends is stopped, and isn't right


def check(tree: teaching_runs.Tree) -> int:
    """Checks all answers by the tree's program, and answers how many there are."""
    count = 0
    tree.run(["./forth", "blocks", "screens/course/course.txt", "course.blk"])
    tree.forth("screens", "screens/course/solutions.txt", "course.blk")
    blank = (tree.room / "course.blk").read_bytes()
    for lesson in course_lessons.read():
        other = 3 if lesson.number == 2 else 2
        typed = f"1 LOAD\n{lesson.number} CHECK\n{other} CHECK\n".encode()
        for answer in lesson.answers:
            (tree.room / "answer.blk").write_bytes(blank)
            (tree.room / "answer.txt").write_text("\n".join([f"% screen {course_lessons.FIRST + lesson.number}", *answer.lines, ""]), encoding="ascii")
            tree.forth("screens", "answer.txt", "answer.blk")
            status, said = tree.run(["timeout", LIMIT, "./forth", "answer.blk"], typed)
            name = f"lesson {lesson.number}, {answer.title}"
            tree.cases.same(f"{name}: {said[-300:]!r}", answer.is_right, f"Lesson {lesson.number} is right".encode() in said)
            if status == 0:
                tree.cases.same(f"{name}: the next CHECK: {said[-300:]!r}", True, f"Lesson {other} is right".encode() in said)
            count += 1
    return count
