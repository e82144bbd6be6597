// Counts what libdxfrw reads of a drawing: its entities, by their kind and in all. bench/readers.py compiles it.
#include <cstdio>
#include <map>
#include <string>

#include "libdwgr.h"

namespace {

// What libdxfrw tells while it reads; a name for each error that it can end with.
const std::map<DRW::error, const char*> errors = {
    {DRW::BAD_NONE, "none"}, {DRW::BAD_UNKNOWN, "unknown"}, {DRW::BAD_OPEN, "open"}, {DRW::BAD_VERSION, "version"},
    {DRW::BAD_READ_METADATA, "metadata"}, {DRW::BAD_READ_FILE_HEADER, "file header"}, {DRW::BAD_READ_HEADER, "header"},
    {DRW::BAD_READ_HANDLES, "handles"}, {DRW::BAD_READ_CLASSES, "classes"}, {DRW::BAD_READ_TABLES, "tables"},
    {DRW::BAD_READ_BLOCKS, "blocks"}, {DRW::BAD_READ_ENTITIES, "entities"}, {DRW::BAD_READ_OBJECTS, "objects"},
    {DRW::BAD_READ_SECTION, "section"}, {DRW::BAD_CODE_PARSED, "code"},
};

class Counter : public DRW_Interface {
public:
    std::map<std::string, long> counts;
    double sum = 0;

    void addHeader(const DRW_Header*) override {}
    void addLType(const DRW_LType&) override { counts["ltype"]++; }
    void addLayer(const DRW_Layer&) override { counts["layer"]++; }
    void addDimStyle(const DRW_Dimstyle&) override {}
    void addVport(const DRW_Vport&) override {}
    void addTextStyle(const DRW_Textstyle&) override { counts["style"]++; }
    void addAppId(const DRW_AppId&) override {}
    void addBlock(const DRW_Block&) override { counts["block"]++; }
    void setBlock(const int) override {}
    void endBlock() override {}
    void addPoint(const DRW_Point& one) override { entity("POINT", one.basePoint.x); }
    void addLine(const DRW_Line& one) override { entity("LINE", one.basePoint.x); }
    void addRay(const DRW_Ray&) override { entity("RAY", 0); }
    void addXline(const DRW_Xline&) override { entity("XLINE", 0); }
    void addArc(const DRW_Arc& one) override { entity("ARC", one.basePoint.x); }
    void addCircle(const DRW_Circle& one) override { entity("CIRCLE", one.basePoint.x); }
    void addEllipse(const DRW_Ellipse&) override { entity("ELLIPSE", 0); }
    void addLWPolyline(const DRW_LWPolyline& one) override { entity("LWPOLYLINE", one.vertlist.empty() ? 0 : one.vertlist.front()->x); }
    void addPolyline(const DRW_Polyline&) override { entity("POLYLINE", 0); }
    void addSpline(const DRW_Spline*) override { entity("SPLINE", 0); }
    void addKnot(const DRW_Entity&) override {}
    void addInsert(const DRW_Insert& one) override { entity("INSERT", one.basePoint.x); }
    void addTrace(const DRW_Trace&) override { entity("TRACE", 0); }
    void add3dFace(const DRW_3Dface&) override { entity("3DFACE", 0); }
    void addSolid(const DRW_Solid&) override { entity("SOLID", 0); }
    void addMText(const DRW_MText&) override { entity("MTEXT", 0); }
    void addText(const DRW_Text& one) override { entity("TEXT", one.basePoint.x); }
    void addDimAlign(const DRW_DimAligned*) override { entity("DIMENSION", 0); }
    void addDimLinear(const DRW_DimLinear*) override { entity("DIMENSION", 0); }
    void addDimRadial(const DRW_DimRadial*) override { entity("DIMENSION", 0); }
    void addDimDiametric(const DRW_DimDiametric*) override { entity("DIMENSION", 0); }
    void addDimAngular(const DRW_DimAngular*) override { entity("DIMENSION", 0); }
    void addDimAngular3P(const DRW_DimAngular3p*) override { entity("DIMENSION", 0); }
    void addDimOrdinate(const DRW_DimOrdinate*) override { entity("DIMENSION", 0); }
    void addLeader(const DRW_Leader*) override { entity("LEADER", 0); }
    void addHatch(const DRW_Hatch*) override { entity("HATCH", 0); }
    void addViewport(const DRW_Viewport&) override { entity("VIEWPORT", 0); }
    void addImage(const DRW_Image*) override { entity("IMAGE", 0); }
    void linkImage(const DRW_ImageDef*) override {}
    void addComment(const char*) override {}
    void addPlotSettings(const DRW_PlotSettings*) override {}
    void writeHeader(DRW_Header&) override {}
    void writeBlocks() override {}
    void writeBlockRecords() override {}
    void writeEntities() override {}
    void writeLTypes() override {}
    void writeLayers() override {}
    void writeTextstyles() override {}
    void writeVports() override {}
    void writeDimstyles() override {}
    void writeObjects() override {}
    void writeAppId() override {}

private:
    void entity(const char* kind, double x) {
        counts[kind]++;
        counts["entities"]++;
        sum += x;
    }
};

}  // namespace

int main(int count, char** words) {
    if (count != 2) {
        std::fputs("usage: count_entities FILE\n", stderr);
        return 2;
    }
    Counter counter;
    dwgR reader(words[1]);
    const bool whole = reader.read(&counter, false);
    const auto name = errors.find(reader.getError());
    std::printf("whole %d error %s sum %.17g", whole ? 1 : 0, name == errors.end() ? "?" : name->second, counter.sum);
    for (const auto& one : counter.counts) {
        std::printf(" %s %ld", one.first.c_str(), one.second);
    }
    std::puts("");
    return 0;
}
