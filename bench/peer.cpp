// VTK's side of bench.py: reads a legacy file, does one job on one thread, and writes a legacy
// file in ASCII, as vizrun does.
//
//   peer version                      the version of VTK
//   peer cubes       IN OUT LEVEL     a contour of an image, cube by cube
//   peer tetrahedra  IN OUT LEVEL     a contour of an image, by five tetrahedra in each cube
//   peer levels      IN OUT LEVEL ..  a contour at each level in turn; the image is read once, and
//                                     the files are OUT with 0, 1 .. behind it
//   peer threshold   IN OUT LOW HIGH  an image with 0 in place of what lies outside
//   peer boundary    IN OUT           the surface of a grid
//   peer grid        IN               reads a grid alone
//   peer polydata    IN               reads polydata alone
//
// A job that writes no file puts `points N cells M`. The status is 1 where a file can't be read or
// written, and 2 where the words are none of these.
#include <cstdlib>
#include <iostream>
#include <string>
#include <vector>

#include <vtkAlgorithm.h>
#include <vtkContourFilter.h>
#include <vtkDataSet.h>
#include <vtkDataSetSurfaceFilter.h>
#include <vtkDataSetTriangleFilter.h>
#include <vtkImageThreshold.h>
#include <vtkMultiThreader.h>
#include <vtkNew.h>
#include <vtkPolyDataReader.h>
#include <vtkPolyDataWriter.h>
#include <vtkSMPTools.h>
#include <vtkStructuredPoints.h>
#include <vtkStructuredPointsReader.h>
#include <vtkStructuredPointsWriter.h>
#include <vtkUnstructuredGridReader.h>
#include <vtkVersion.h>

namespace {

using Words = std::vector<std::string>;

double number(const std::string& word) {
  return std::atof(word.c_str());
}

// Whether the file could be read.
bool read(vtkDataReader* reader, const std::string& path) {
  reader->SetFileName(path.c_str());
  reader->Update();
  return reader->GetErrorCode() == 0;
}

// The status of writing what the filter gives.
int write(vtkDataWriter* writer, vtkAlgorithm* filter, const std::string& path) {
  writer->SetInputConnection(filter->GetOutputPort());
  writer->SetFileName(path.c_str());
  writer->SetFileTypeToASCII();
  return writer->Write() && writer->GetErrorCode() == 0 ? 0 : 1;
}

// A contour with scalars and without normals, as ours has.
void set_up(vtkContourFilter* contour, vtkAlgorithm* source) {
  contour->SetInputConnection(source->GetOutputPort());
  contour->ComputeNormalsOff();
  contour->ComputeGradientsOff();
}

int one_level(const Words& words, bool by_tetrahedra) {
  vtkNew<vtkStructuredPointsReader> reader;
  if (!read(reader, words[1])) {
    return 1;
  }
  vtkNew<vtkDataSetTriangleFilter> tetrahedra;
  tetrahedra->SetInputConnection(reader->GetOutputPort());
  vtkNew<vtkContourFilter> contour;
  set_up(contour, by_tetrahedra ? static_cast<vtkAlgorithm*>(tetrahedra) : reader);
  contour->SetValue(0, number(words[3]));
  vtkNew<vtkPolyDataWriter> writer;
  return write(writer, contour, words[2]);
}

// The reader stands at the head of one pipeline throughout, which keeps what it read.
int levels(const Words& words) {
  vtkNew<vtkStructuredPointsReader> reader;
  if (!read(reader, words[1])) {
    return 1;
  }
  vtkNew<vtkContourFilter> contour;
  set_up(contour, reader);
  vtkNew<vtkPolyDataWriter> writer;
  for (std::size_t at = 3; at < words.size(); at++) {
    contour->SetValue(0, number(words[at]));
    if (write(writer, contour, words[2] + std::to_string(at - 3)) != 0) {
      return 1;
    }
  }
  return 0;
}

// Of unsigned_char the result is short, since VTK would write bytes as colours, in decimals.
int threshold(const Words& words) {
  vtkNew<vtkStructuredPointsReader> reader;
  if (!read(reader, words[1])) {
    return 1;
  }
  vtkNew<vtkImageThreshold> filter;
  filter->SetInputConnection(reader->GetOutputPort());
  filter->ThresholdBetween(number(words[3]), number(words[4]));
  filter->ReplaceInOff();
  filter->ReplaceOutOn();
  filter->SetOutValue(0);
  if (reader->GetOutput()->GetScalarType() == VTK_UNSIGNED_CHAR) {
    filter->SetOutputScalarTypeToShort();
  }
  vtkNew<vtkStructuredPointsWriter> writer;
  return write(writer, filter, words[2]);
}

int boundary(const Words& words) {
  vtkNew<vtkUnstructuredGridReader> reader;
  if (!read(reader, words[1])) {
    return 1;
  }
  vtkNew<vtkDataSetSurfaceFilter> filter;
  filter->SetInputConnection(reader->GetOutputPort());
  vtkNew<vtkPolyDataWriter> writer;
  return write(writer, filter, words[2]);
}

int reading(vtkDataReader* reader, const std::string& path) {
  if (!read(reader, path)) {
    return 1;
  }
  auto* made = vtkDataSet::SafeDownCast(reader->GetOutputDataObject(0));
  std::cout << "points " << made->GetNumberOfPoints() << " cells " << made->GetNumberOfCells()
            << "\n";
  return 0;
}

int run(const Words& words) {
  const std::string job = words.empty() ? "" : words[0];
  const std::size_t count = words.size();
  if (job == "version" && count == 1) {
    std::cout << vtkVersion::GetVTKVersion() << "\n";
    return 0;
  }
  if ((job == "cubes" || job == "tetrahedra") && count == 4) {
    return one_level(words, job == "tetrahedra");
  }
  if (job == "levels" && count >= 4) {
    return levels(words);
  }
  if (job == "threshold" && count == 5) {
    return threshold(words);
  }
  if (job == "boundary" && count == 3) {
    return boundary(words);
  }
  if (job == "grid" && count == 2) {
    return reading(vtkNew<vtkUnstructuredGridReader>(), words[1]);
  }
  if (job == "polydata" && count == 2) {
    return reading(vtkNew<vtkPolyDataReader>(), words[1]);
  }
  std::cerr << "peer: the words are none of those in front of bench/peer.cpp\n";
  return 2;
}

} // namespace

int main(int count, char** words) {
  vtkMultiThreader::SetGlobalMaximumNumberOfThreads(1);
  vtkSMPTools::Initialize(1);
  return run(Words(words + 1, words + count));
}
