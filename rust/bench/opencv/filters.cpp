// OpenCV's separable filter and its box filter, in 64-bit floats and with black
// around the picture, for filters.rs. Anchors are OpenCV's own: the middle of a
// kernel. tools/peers compiles this file. An error of OpenCV ends the program.
#include <cstdint>
#include <opencv2/imgproc.hpp>

// Pixels and a sum for each of them.
struct Picture {
    int width, height;
    const uint8_t *pixels;
    double *sums;
};

static cv::Mat pixels(const Picture &picture)
{
    return cv::Mat(picture.height, picture.width, CV_8U, const_cast<uint8_t *>(picture.pixels));
}

static cv::Mat sums(const Picture &picture)
{
    return cv::Mat(picture.height, picture.width, CV_64F, picture.sums);
}

static cv::Mat kernel(const double *coefficients, int count)
{
    return cv::Mat(1, count, CV_64F, const_cast<double *>(coefficients));
}

extern "C" const char *peers_version() noexcept
{
    return CV_VERSION;
}

extern "C" void peers_use_one_thread() noexcept
{
    cv::setNumThreads(1);
}

extern "C" void peers_sep_filter(const Picture *picture, const double *rows, int row_count,
                                 const double *columns, int column_count) noexcept
{
    cv::Mat out = sums(*picture);
    cv::sepFilter2D(pixels(*picture), out, CV_64F, kernel(rows, row_count), kernel(columns, column_count),
                    cv::Point(-1, -1), 0, cv::BORDER_CONSTANT);
}

// Each box is a width and a height. All but the first rewrite the sums in place.
extern "C" void peers_box_filters(const Picture *picture, const int (*boxes)[2], size_t count) noexcept
{
    cv::Mat out = sums(*picture);
    for (size_t k = 0; k < count; k++) {
        cv::boxFilter(k == 0 ? pixels(*picture) : out, out, CV_64F, cv::Size(boxes[k][0], boxes[k][1]),
                      cv::Point(-1, -1), false, cv::BORDER_CONSTANT);
    }
}
