/* The firmware of a box at a cricket ground that judges deliveries, in small: a tick interrupt, a bowled ball, a
 * recalibration and frames on their way to be recorded, played against the library.
 *
 * Four tasks share the box. The tracker is urgent: it must run the moment a ball is bowled, and follows it, for which it
 * needs the pose table, where each camera stands and looks. The survey is not urgent: now and then it recalibrates, and
 * keeps the pose table to itself meanwhile, since a table that is cut in half would judge a ball wrongly. The camera task
 * is in between, and needs no pose table. A ball that comes during a recalibration makes the tracker wait for the survey;
 * the camera task must not hold up both, so the pose table is a mutex whose owner inherits urgency. The recorder is the least
 * urgent: it gets frames by number from the camera task, through a queue that it owns. A camera task that finds the queue full
 * waits for the recorder; the survey must not hold up both, so the owner of a queue inherits urgency too. */
#include "cungkalisa.h"

#include <stdio.h>

enum { TRACKER, CAMERA, SURVEY, RECORDER };
enum { POSE_TABLE };
enum { BALL };
enum { FRAMES };

static cungkalisa record; /* the one record */
static uint32_t block[2]; /* the words of its queue: two frames, one word each */
static const cungkalisa_kernel kernel = {&record, block, 2};

static const char *name(uint8_t task)
{
    static const char *const names[] = {"tracker", "camera", "survey", "recorder"};
    return task == CUNGKALISA_NONE ? "nobody" : names[task];
}

/* One line of the story: what happened, who runs now, and why. */
static void tell(const char *what, uint64_t answer, const char *why)
{
    if (cungkalisa_number(answer) > CUNGKALISA_WAITS)
        printf("%-38s refused, %d: %s\n", what, cungkalisa_number(answer), why);
    else
        printf("%-38s %s runs: %s\n", what, name(cungkalisa_run(answer)), why);
}

static unsigned level(uint32_t task)
{
    return (unsigned)cungkalisa_value(cungkalisa_level(&kernel, task));
}

static void levels(void)
{
    printf("    levels: tracker %u, camera %u, survey %u, recorder %u\n", level(TRACKER), level(CAMERA), level(SURVEY), level(RECORDER));
}

/* The frame that the recorder last received. */
static void held_frame(void)
{
    printf("    the recorder holds frame %u\n", (unsigned)cungkalisa_value(cungkalisa_word(&kernel, RECORDER, 0)));
}

/* The timer's interrupt: one tick, and whoever the kernel names runs on. */
static uint64_t tick_interrupt(void)
{
    return cungkalisa_tick(&kernel);
}

/* The interrupt from the bowler's end: a ball is on its way. */
static uint64_t ball_interrupt(void)
{
    return cungkalisa_post(&kernel, BALL);
}

/* The camera task hands a frame on by its number, and waits so long where the queue is full. */
static uint64_t send_frame(uint32_t frame, uint32_t time)
{
    return cungkalisa_send(&kernel, FRAMES, time, &frame, 1);
}

static void set_up(void)
{
    cungkalisa_fresh(&record);
    cungkalisa_task(&kernel, 2);                     /* TRACKER */
    cungkalisa_task(&kernel, 10);                    /* CAMERA */
    cungkalisa_task(&kernel, 20);                    /* SURVEY */
    cungkalisa_task(&kernel, 25);                    /* RECORDER */
    cungkalisa_mutex(&kernel, 1);                    /* POSE_TABLE, inheriting */
    cungkalisa_sem(&kernel, 0, 1);                   /* BALL */
    cungkalisa_queue_owned(&kernel, 1, 2, RECORDER); /* FRAMES */
    tell("start", cungkalisa_start(&kernel), "it is the most urgent");
    tell("the tracker waits for a ball", cungkalisa_pend(&kernel, BALL, CUNGKALISA_FOREVER), "the tracker waits, and the camera comes next");
    tell("the camera sleeps till its next frame", cungkalisa_sleep(&kernel, 2), "the recorder is less urgent");
}

static void recalibration(void)
{
    tell("the survey locks the pose table", cungkalisa_lock(&kernel, POSE_TABLE, 0), "the table was free; it recalibrates the cameras");
    tell("tick", tick_interrupt(), "no wait ends at this tick");
    tell("a ball is bowled", ball_interrupt(), "it is more urgent than the survey, and displaces it");
    tell("the tracker asks for the pose table", cungkalisa_lock(&kernel, POSE_TABLE, 50), "the tracker waits for it, and the survey inherits its urgency");
    levels();
    tell("tick: the camera's frame is due", tick_interrupt(), "the camera is ready, but less urgent than the tracker that waits");
    tell("the survey unlocks it, written whole", cungkalisa_unlock(&kernel, POSE_TABLE), "the table is the tracker's now, and the survey is as urgent as before");
    levels();
}

static void after_the_ball(void)
{
    tell("the tracker locks it again, by mistake", cungkalisa_lock(&kernel, POSE_TABLE, 0), "it owns the table already");
    tell("the ball is judged, the table unlocked", cungkalisa_unlock(&kernel, POSE_TABLE), "nobody waits for the table");
    tell("the tracker waits for the next ball", cungkalisa_pend(&kernel, BALL, 3), "its frame has waited long enough");
    tell("the camera sleeps till its next frame", cungkalisa_sleep(&kernel, 4), "it goes on where it was displaced");
    tell("tick", tick_interrupt(), "no wait ends at this tick");
    tell("tick", tick_interrupt(), "no wait ends at this tick");
    tell("tick: no ball came in time", tick_interrupt(), "its wait has timed out");
    printf("    the tracker's wait ended with %u, timed out\n", (unsigned)cungkalisa_value(cungkalisa_outcome(&kernel, TRACKER)));
}

static void frames(void)
{
    tell("the tracker waits for the next ball", cungkalisa_pend(&kernel, BALL, CUNGKALISA_FOREVER), "it goes on where it was displaced");
    tell("the survey sleeps", cungkalisa_sleep(&kernel, 2), "nobody else is ready");
    tell("the recorder asks for a frame", cungkalisa_receive(&kernel, FRAMES, CUNGKALISA_FOREVER), "there is none yet");
    tell("tick: the camera's frame is due", tick_interrupt(), "the others wait");
    tell("the camera sends frame 70", send_frame(70, 0), "the recorder has the frame, but is less urgent");
    tell("the camera sends frame 71", send_frame(71, 0), "it is queued");
    tell("the camera sends frame 72", send_frame(72, 0), "it is queued, and the queue is full");
    tell("the camera sends frame 73", send_frame(73, 50), "the camera waits for room, and the recorder inherits its urgency");
    levels();
    held_frame();
    tell("tick: the survey wakes", tick_interrupt(), "the survey is ready, but less urgent than the camera that waits");
    tell("the recorder asks for a frame", cungkalisa_receive(&kernel, FRAMES, 0), "it got frame 71, and the camera's was taken in");
    levels();
    tell("the camera sleeps till its next frame", cungkalisa_sleep(&kernel, 40), "it is more urgent than the recorder");
    held_frame();
    tell("the survey asks for a frame by mistake", cungkalisa_receive(&kernel, FRAMES, 0), "the recorder owns the queue");
}

/* A record that something has written over is refused, and nobody is named to run. */
static void damage(void)
{
    record.state.tasks.level[SURVEY] = 0;
    uint64_t answer = tick_interrupt();
    tell("tick, on a damaged record", answer, "a stored level is not what the rules say");
    printf("    to run: %s\n", name(cungkalisa_run(answer)));
}

int main(void)
{
    set_up();
    recalibration();
    after_the_ball();
    frames();
    damage();
    return 0;
}
